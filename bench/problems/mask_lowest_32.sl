; A mask up to the lowest bit that is set, at width 32.
(set-logic BV)
(synth-fun f ((x (_ BitVec 32))) (_ BitVec 32)
  ((S (_ BitVec 32)))
  ((S (_ BitVec 32) (x #x00000001 (bvand S S) (bvor S S) (bvadd S S) (bvneg S) (bvnot S) (bvsub S S)))))
(declare-var x (_ BitVec 32))
(constraint (= (f x) (bvxor x (bvsub x #x00000001))))
(check-synth)
