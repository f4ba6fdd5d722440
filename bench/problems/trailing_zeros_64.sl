; A mask of the trailing zeros, at width 64.
(set-logic BV)
(synth-fun f ((x (_ BitVec 64))) (_ BitVec 64)
  ((S (_ BitVec 64)))
  ((S (_ BitVec 64) (x #x0000000000000001 (bvnot S) (bvneg S) (bvand S S) (bvor S S) (bvxor S S) (bvadd S S) (bvsub S S) (bvlshr S S)))))
(declare-var x (_ BitVec 64))
(constraint (= (f x) (bvsub (bvand x (bvneg x)) #x0000000000000001)))
(check-synth)
