; A number moved towards 0 by 3, and 0 where it is nearer.
; leaves: 3
(set-logic LIA)
(synth-fun f ((x Int)) Int)
(declare-var x Int)
(constraint (= (f x) (ite (> x 3) (- x 3) (ite (< x (- 3)) (+ x 3) 0))))
(check-synth)
