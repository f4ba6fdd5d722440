; The sign of a number, at width 32.
; leaves: 3
(set-logic BV)
(synth-fun f ((x (_ BitVec 32))) (_ BitVec 32)
  ((S (_ BitVec 32)) (B Bool))
  ((S (_ BitVec 32) (x #x00000000 #x00000001 #xffffffff (ite B S S)))
   (B Bool ((bvsle S S) (= S S) (and B B) (not B)))))
(declare-var x (_ BitVec 32))
(constraint (=> (= x #x00000000) (= (f x) #x00000000)))
(constraint (=> (not (bvsle x #x00000000)) (= (f x) #x00000001)))
(constraint (=> (not (bvsle #x00000000 x)) (= (f x) #xffffffff)))
(check-synth)
