; A disjunction, by conjunction and sum, at width 8.
(set-logic BV)
(synth-fun f ((x (_ BitVec 8)) (y (_ BitVec 8))) (_ BitVec 8)
  ((S (_ BitVec 8)))
  ((S (_ BitVec 8) (x y #x01 (bvneg S) (bvnot S) (bvand S S) (bvxor S S) (bvadd S S) (bvsub S S)))))
(declare-var x (_ BitVec 8))
(declare-var y (_ BitVec 8))
(constraint (= (f x y) (bvor x y)))
(check-synth)
