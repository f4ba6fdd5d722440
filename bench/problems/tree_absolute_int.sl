; A number without its sign, over integers.
; leaves: 2
(set-logic LIA)
(synth-fun f ((x Int)) Int)
(declare-var x Int)
(constraint (=> (<= 0 x) (= (f x) x)))
(constraint (=> (<= x 0) (= (f x) (- x))))
(check-synth)
