; A number without its sign, at width 8.
; leaves: 2
(set-logic BV)
(synth-fun f ((x (_ BitVec 8))) (_ BitVec 8)
  ((S (_ BitVec 8)) (B Bool))
  ((S (_ BitVec 8) (x #x00 (bvneg S) (ite B S S)))
   (B Bool ((bvsle S S) (= S S) (and B B) (not B)))))
(declare-var x (_ BitVec 8))
(constraint (=> (bvsle #x00 x) (= (f x) x)))
(constraint (=> (bvsle x #x00) (= (f x) (bvneg x))))
(check-synth)
