; An exclusive disjunction, by or, and and a difference, at width 64.
(set-logic BV)
(synth-fun f ((x (_ BitVec 64)) (y (_ BitVec 64))) (_ BitVec 64)
  ((S (_ BitVec 64)))
  ((S (_ BitVec 64) (x y #x0000000000000001 (bvneg S) (bvnot S) (bvand S S) (bvor S S) (bvadd S S) (bvsub S S)))))
(declare-var x (_ BitVec 64))
(declare-var y (_ BitVec 64))
(constraint (= (f x y) (bvxor x y)))
(check-synth)
