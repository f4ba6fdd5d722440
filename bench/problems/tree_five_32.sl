; A step function of five values, at width 32.
; leaves: 5
(set-logic BV)
(synth-fun f ((x (_ BitVec 32))) (_ BitVec 32)
  ((S (_ BitVec 32)) (B Bool))
  ((S (_ BitVec 32) (x #x0000000a #x00000014 #x00000028 #x00000050 #x00000001 #x00000002 #x00000004 #x00000007 #x0000000b (ite B S S)))
   (B Bool ((bvule S S) (= S S) (and B B) (not B)))))
(declare-var x (_ BitVec 32))
(constraint (=> (bvule x #x0000000a) (= (f x) #x00000001)))
(constraint (=> (and (not (bvule x #x0000000a)) (bvule x #x00000014)) (= (f x) #x00000002)))
(constraint (=> (and (not (bvule x #x00000014)) (bvule x #x00000028)) (= (f x) #x00000004)))
(constraint (=> (and (not (bvule x #x00000028)) (bvule x #x00000050)) (= (f x) #x00000007)))
(constraint (=> (not (bvule x #x00000050)) (= (f x) #x0000000b)))
(check-synth)
