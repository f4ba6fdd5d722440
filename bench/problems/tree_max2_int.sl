; The greatest of two numbers, over integers.
; leaves: 2
(set-logic LIA)
(synth-fun f ((x1 Int) (x2 Int)) Int)
(declare-var x1 Int)
(declare-var x2 Int)
(constraint (<= x1 (f x1 x2)))
(constraint (<= x2 (f x1 x2)))
(constraint (or (= (f x1 x2) x1) (= (f x1 x2) x2)))
(check-synth)
