; An exclusive disjunction, by or, and and a difference, at width 16.
(set-logic BV)
(synth-fun f ((x (_ BitVec 16)) (y (_ BitVec 16))) (_ BitVec 16)
  ((S (_ BitVec 16)))
  ((S (_ BitVec 16) (x y #x0001 (bvneg S) (bvnot S) (bvand S S) (bvor S S) (bvadd S S) (bvsub S S)))))
(declare-var x (_ BitVec 16))
(declare-var y (_ BitVec 16))
(constraint (= (f x y) (bvxor x y)))
(check-synth)
