; The sign of a number, at width 16.
; leaves: 3
(set-logic BV)
(synth-fun f ((x (_ BitVec 16))) (_ BitVec 16)
  ((S (_ BitVec 16)) (B Bool))
  ((S (_ BitVec 16) (x #x0000 #x0001 #xffff (ite B S S)))
   (B Bool ((bvsle S S) (= S S) (and B B) (not B)))))
(declare-var x (_ BitVec 16))
(constraint (=> (= x #x0000) (= (f x) #x0000)))
(constraint (=> (not (bvsle x #x0000)) (= (f x) #x0001)))
(constraint (=> (not (bvsle #x0000 x)) (= (f x) #xffff)))
(check-synth)
