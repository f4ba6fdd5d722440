; A grade, by five steps of the points.
; leaves: 5
(set-logic LIA)
(synth-fun f ((p Int)) Int)
(declare-var p Int)
(constraint (= (f p) (ite (>= p 90) 1 (ite (>= p 80) 2 (ite (>= p 65) 3 (ite (>= p 50) 4 5))))))
(check-synth)
