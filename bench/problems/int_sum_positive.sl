; The sum of those of two numbers that are positive.
(set-logic LIA)
(synth-fun f ((x Int) (y Int)) Int)
(declare-var x Int)
(declare-var y Int)
(constraint (= (f x y) (+ (ite (> x 0) x 0) (ite (> y 0) y 0))))
(check-synth)
