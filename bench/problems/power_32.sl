; Whether at most one bit is set, at width 32.
(set-logic BV)
(synth-fun p ((x (_ BitVec 32))) Bool
  ((B Bool) (S (_ BitVec 32)))
  ((B Bool ((= S S) (bvult S S) (not B)))
   (S (_ BitVec 32) (x #x00000000 #x00000001 (bvnot S) (bvneg S) (bvand S S) (bvor S S) (bvxor S S) (bvadd S S)))))
(declare-var x (_ BitVec 32))
(constraint (= (p x) (= x (bvand x (bvneg x)))))
(check-synth)
