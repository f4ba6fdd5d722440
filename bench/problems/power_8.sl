; Whether at most one bit is set, at width 8.
(set-logic BV)
(synth-fun p ((x (_ BitVec 8))) Bool
  ((B Bool) (S (_ BitVec 8)))
  ((B Bool ((= S S) (bvult S S) (not B)))
   (S (_ BitVec 8) (x #x00 #x01 (bvnot S) (bvneg S) (bvand S S) (bvor S S) (bvxor S S) (bvadd S S)))))
(declare-var x (_ BitVec 8))
(constraint (= (p x) (= x (bvand x (bvneg x)))))
(check-synth)
