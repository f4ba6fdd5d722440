; A linear function of three numbers.
(set-logic LIA)
(synth-fun f ((x Int) (y Int) (z Int)) Int)
(declare-var x Int)
(declare-var y Int)
(declare-var z Int)
(constraint (= (f x y z) (+ (- (+ (* 2 x) (* 3 y)) z) 4)))
(check-synth)
