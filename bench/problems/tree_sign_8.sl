; The sign of a number, at width 8.
; leaves: 3
(set-logic BV)
(synth-fun f ((x (_ BitVec 8))) (_ BitVec 8)
  ((S (_ BitVec 8)) (B Bool))
  ((S (_ BitVec 8) (x #x00 #x01 #xff (ite B S S)))
   (B Bool ((bvsle S S) (= S S) (and B B) (not B)))))
(declare-var x (_ BitVec 8))
(constraint (=> (= x #x00) (= (f x) #x00)))
(constraint (=> (not (bvsle x #x00)) (= (f x) #x01)))
(constraint (=> (not (bvsle #x00 x)) (= (f x) #xff)))
(check-synth)
