; Five for each piece, and four for each above the tenth.
; leaves: 2
(set-logic LIA)
(synth-fun f ((n Int)) Int)
(declare-var n Int)
(constraint (= (f n) (ite (<= n 10) (* 5 n) (+ (* 4 n) 10))))
(check-synth)
