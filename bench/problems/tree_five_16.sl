; A step function of five values, at width 16.
; leaves: 5
(set-logic BV)
(synth-fun f ((x (_ BitVec 16))) (_ BitVec 16)
  ((S (_ BitVec 16)) (B Bool))
  ((S (_ BitVec 16) (x #x000a #x0014 #x0028 #x0050 #x0001 #x0002 #x0004 #x0007 #x000b (ite B S S)))
   (B Bool ((bvule S S) (= S S) (and B B) (not B)))))
(declare-var x (_ BitVec 16))
(constraint (=> (bvule x #x000a) (= (f x) #x0001)))
(constraint (=> (and (not (bvule x #x000a)) (bvule x #x0014)) (= (f x) #x0002)))
(constraint (=> (and (not (bvule x #x0014)) (bvule x #x0028)) (= (f x) #x0004)))
(constraint (=> (and (not (bvule x #x0028)) (bvule x #x0050)) (= (f x) #x0007)))
(constraint (=> (not (bvule x #x0050)) (= (f x) #x000b)))
(check-synth)
