; What a letter costs, by four steps of its weight.
; leaves: 4
(set-logic LIA)
(synth-fun f ((w Int)) Int)
(declare-var w Int)
(constraint (= (f w) (ite (<= w 20) 85 (ite (<= w 50) 100 (ite (<= w 100) 160 270)))))
(check-synth)
