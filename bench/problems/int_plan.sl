; The cheaper of two plans.
; leaves: 2
(set-logic LIA)
(synth-fun f ((n Int)) Int)
(declare-var n Int)
(constraint (= (f n) (ite (<= (* 3 n) (+ n 40)) (* 3 n) (+ n 40))))
(check-synth)
