; A mask up to the lowest bit that is set, at width 8.
(set-logic BV)
(synth-fun f ((x (_ BitVec 8))) (_ BitVec 8)
  ((S (_ BitVec 8)))
  ((S (_ BitVec 8) (x #x01 (bvand S S) (bvor S S) (bvadd S S) (bvneg S) (bvnot S) (bvsub S S)))))
(declare-var x (_ BitVec 8))
(constraint (= (f x) (bvxor x (bvsub x #x01))))
(check-synth)
