; A number, or 0 where it is negative.
; leaves: 2
(set-logic LIA)
(synth-fun f ((x Int)) Int)
(declare-var x Int)
(constraint (= (f x) (ite (< x 0) 0 x)))
(check-synth)
