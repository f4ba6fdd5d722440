; The minute after a minute.
; leaves: 2
(set-logic LIA)
(synth-fun f ((x Int)) Int)
(declare-var x Int)
(assume (and (<= 0 x) (<= x 59)))
(constraint (= (f x) (ite (= x 59) 0 (+ x 1))))
(check-synth)
