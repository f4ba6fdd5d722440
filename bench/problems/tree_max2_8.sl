; The greatest of two numbers, at width 8.
; leaves: 2
(set-logic BV)
(synth-fun f ((x1 (_ BitVec 8)) (x2 (_ BitVec 8))) (_ BitVec 8)
  ((S (_ BitVec 8)) (B Bool))
  ((S (_ BitVec 8) (x1 x2 (ite B S S)))
   (B Bool ((bvule S S) (= S S) (and B B) (not B)))))
(declare-var x1 (_ BitVec 8))
(declare-var x2 (_ BitVec 8))
(constraint (bvule x1 (f x1 x2)))
(constraint (bvule x2 (f x1 x2)))
(constraint (or (= (f x1 x2) x1) (= (f x1 x2) x2)))
(check-synth)
