; The sign of a number, over integers.
; leaves: 3
(set-logic LIA)
(synth-fun f ((x Int)) Int)
(declare-var x Int)
(constraint (=> (= x 0) (= (f x) 0)))
(constraint (=> (not (<= x 0)) (= (f x) 1)))
(constraint (=> (not (<= 0 x)) (= (f x) (- 1))))
(check-synth)
