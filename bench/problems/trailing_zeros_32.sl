; A mask of the trailing zeros, at width 32.
(set-logic BV)
(synth-fun f ((x (_ BitVec 32))) (_ BitVec 32)
  ((S (_ BitVec 32)))
  ((S (_ BitVec 32) (x #x00000001 (bvnot S) (bvneg S) (bvand S S) (bvor S S) (bvxor S S) (bvadd S S) (bvsub S S) (bvlshr S S)))))
(declare-var x (_ BitVec 32))
(constraint (= (f x) (bvsub (bvand x (bvneg x)) #x00000001)))
(check-synth)
