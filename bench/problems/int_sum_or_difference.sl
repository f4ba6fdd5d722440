; A sum or a difference, by the order of two numbers.
; leaves: 2
(set-logic LIA)
(synth-fun f ((x Int) (y Int)) Int)
(declare-var x Int)
(declare-var y Int)
(constraint (= (f x y) (ite (> x y) (+ x y) (- x y))))
(check-synth)
