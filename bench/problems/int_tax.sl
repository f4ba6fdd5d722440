; A tax of three brackets.
; leaves: 3
(set-logic LIA)
(synth-fun f ((x Int)) Int)
(declare-var x Int)
(constraint (= (f x) (ite (<= x 10) 0 (ite (<= x 50) (- x 10) (- (* 2 x) 60)))))
(check-synth)
