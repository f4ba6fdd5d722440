; Above two numbers, and its double is no odd number that is given.
; leaves: 2
(set-logic LIA)
(synth-fun f ((x Int) (y Int)) Int)
(declare-var x Int)
(declare-var y Int)
(constraint (distinct (+ (f x y) (f x y)) (+ (+ x x) 1)))
(constraint (>= (f x y) x))
(constraint (>= (f x y) y))
(check-synth)
