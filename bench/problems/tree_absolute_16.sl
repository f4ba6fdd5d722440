; A number without its sign, at width 16.
; leaves: 2
(set-logic BV)
(synth-fun f ((x (_ BitVec 16))) (_ BitVec 16)
  ((S (_ BitVec 16)) (B Bool))
  ((S (_ BitVec 16) (x #x0000 (bvneg S) (ite B S S)))
   (B Bool ((bvsle S S) (= S S) (and B B) (not B)))))
(declare-var x (_ BitVec 16))
(constraint (=> (bvsle #x0000 x) (= (f x) x)))
(constraint (=> (bvsle x #x0000) (= (f x) (bvneg x))))
(check-synth)
