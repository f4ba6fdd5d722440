; A linear function that is known by its steps and at one point.
(set-logic LIA)
(synth-fun f ((x Int) (y Int)) Int)
(declare-var x Int)
(declare-var y Int)
(constraint (= (f 0 0) (- 1)))
(constraint (= (f (+ x 1) y) (+ (f x y) 3)))
(constraint (= (f x (+ y 1)) (+ (f x y) 2)))
(check-synth)
