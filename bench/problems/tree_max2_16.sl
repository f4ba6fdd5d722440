; The greatest of two numbers, at width 16.
; leaves: 2
(set-logic BV)
(synth-fun f ((x1 (_ BitVec 16)) (x2 (_ BitVec 16))) (_ BitVec 16)
  ((S (_ BitVec 16)) (B Bool))
  ((S (_ BitVec 16) (x1 x2 (ite B S S)))
   (B Bool ((bvule S S) (= S S) (and B B) (not B)))))
(declare-var x1 (_ BitVec 16))
(declare-var x2 (_ BitVec 16))
(constraint (bvule x1 (f x1 x2)))
(constraint (bvule x2 (f x1 x2)))
(constraint (or (= (f x1 x2) x1) (= (f x1 x2) x2)))
(check-synth)
