; A third of a multiple of three.
(set-logic LIA)
(synth-fun f ((x Int)) Int)
(declare-var x Int)
(constraint (= (+ (f x) (+ (f x) (f x))) (+ (* 3 x) 6)))
(check-synth)
