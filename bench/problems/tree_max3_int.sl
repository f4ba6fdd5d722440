; The greatest of three numbers, over integers.
; leaves: 4
(set-logic LIA)
(synth-fun f ((x1 Int) (x2 Int) (x3 Int)) Int)
(declare-var x1 Int)
(declare-var x2 Int)
(declare-var x3 Int)
(constraint (<= x1 (f x1 x2 x3)))
(constraint (<= x2 (f x1 x2 x3)))
(constraint (<= x3 (f x1 x2 x3)))
(constraint (or (= (f x1 x2 x3) x1) (= (f x1 x2 x3) x2) (= (f x1 x2 x3) x3)))
(check-synth)
