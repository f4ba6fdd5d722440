; A sum, by its bits and its carries, at width 8.
(set-logic BV)
(synth-fun f ((x (_ BitVec 8)) (y (_ BitVec 8))) (_ BitVec 8)
  ((S (_ BitVec 8)))
  ((S (_ BitVec 8) (x y #x01 (bvnot S) (bvand S S) (bvor S S) (bvxor S S) (bvshl S S) (bvsub S S)))))
(declare-var x (_ BitVec 8))
(declare-var y (_ BitVec 8))
(constraint (= (f x y) (bvadd x y)))
(check-synth)
