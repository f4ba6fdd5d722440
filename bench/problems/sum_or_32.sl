; A disjunction, by conjunction and sum, at width 32.
(set-logic BV)
(synth-fun f ((x (_ BitVec 32)) (y (_ BitVec 32))) (_ BitVec 32)
  ((S (_ BitVec 32)))
  ((S (_ BitVec 32) (x y #x00000001 (bvneg S) (bvnot S) (bvand S S) (bvxor S S) (bvadd S S) (bvsub S S)))))
(declare-var x (_ BitVec 32))
(declare-var y (_ BitVec 32))
(constraint (= (f x y) (bvor x y)))
(check-synth)
