; A number without its sign, at width 32.
; leaves: 2
(set-logic BV)
(synth-fun f ((x (_ BitVec 32))) (_ BitVec 32)
  ((S (_ BitVec 32)) (B Bool))
  ((S (_ BitVec 32) (x #x00000000 (bvneg S) (ite B S S)))
   (B Bool ((bvsle S S) (= S S) (and B B) (not B)))))
(declare-var x (_ BitVec 32))
(constraint (=> (bvsle #x00000000 x) (= (f x) x)))
(constraint (=> (bvsle x #x00000000) (= (f x) (bvneg x))))
(check-synth)
