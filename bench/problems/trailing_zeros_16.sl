; A mask of the trailing zeros, at width 16.
(set-logic BV)
(synth-fun f ((x (_ BitVec 16))) (_ BitVec 16)
  ((S (_ BitVec 16)))
  ((S (_ BitVec 16) (x #x0001 (bvnot S) (bvneg S) (bvand S S) (bvor S S) (bvxor S S) (bvadd S S) (bvsub S S) (bvlshr S S)))))
(declare-var x (_ BitVec 16))
(constraint (= (f x) (bvsub (bvand x (bvneg x)) #x0001)))
(check-synth)
