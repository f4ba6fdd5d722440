; A step function of five values, over integers.
; leaves: 5
(set-logic LIA)
(synth-fun f ((x Int)) Int)
(declare-var x Int)
(constraint (=> (<= x 10) (= (f x) 1)))
(constraint (=> (and (not (<= x 10)) (<= x 20)) (= (f x) 2)))
(constraint (=> (and (not (<= x 20)) (<= x 40)) (= (f x) 4)))
(constraint (=> (and (not (<= x 40)) (<= x 80)) (= (f x) 7)))
(constraint (=> (not (<= x 80)) (= (f x) 11)))
(check-synth)
