; The greatest of four numbers, over integers.
; leaves: 8
(set-logic LIA)
(synth-fun f ((x1 Int) (x2 Int) (x3 Int) (x4 Int)) Int)
(declare-var x1 Int)
(declare-var x2 Int)
(declare-var x3 Int)
(declare-var x4 Int)
(constraint (<= x1 (f x1 x2 x3 x4)))
(constraint (<= x2 (f x1 x2 x3 x4)))
(constraint (<= x3 (f x1 x2 x3 x4)))
(constraint (<= x4 (f x1 x2 x3 x4)))
(constraint (or (= (f x1 x2 x3 x4) x1) (= (f x1 x2 x3 x4) x2) (= (f x1 x2 x3 x4) x3) (= (f x1 x2 x3 x4) x4)))
(check-synth)
