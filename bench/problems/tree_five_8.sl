; A step function of five values, at width 8.
; leaves: 5
(set-logic BV)
(synth-fun f ((x (_ BitVec 8))) (_ BitVec 8)
  ((S (_ BitVec 8)) (B Bool))
  ((S (_ BitVec 8) (x #x0a #x14 #x28 #x50 #x01 #x02 #x04 #x07 #x0b (ite B S S)))
   (B Bool ((bvule S S) (= S S) (and B B) (not B)))))
(declare-var x (_ BitVec 8))
(constraint (=> (bvule x #x0a) (= (f x) #x01)))
(constraint (=> (and (not (bvule x #x0a)) (bvule x #x14)) (= (f x) #x02)))
(constraint (=> (and (not (bvule x #x14)) (bvule x #x28)) (= (f x) #x04)))
(constraint (=> (and (not (bvule x #x28)) (bvule x #x50)) (= (f x) #x07)))
(constraint (=> (not (bvule x #x50)) (= (f x) #x0b)))
(check-synth)
