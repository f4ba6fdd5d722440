; The lesser and the greater of two numbers.
; leaves: 4
(set-logic LIA)
(synth-fun low ((x Int) (y Int)) Int)
(synth-fun high ((x Int) (y Int)) Int)
(declare-var x Int)
(declare-var y Int)
(constraint (<= (low x y) (high x y)))
(constraint (= (+ (low x y) (high x y)) (+ x y)))
(constraint (or (= (low x y) x) (= (low x y) y)))
(check-synth)
