; A sum, by its bits and its carries, at width 16.
(set-logic BV)
(synth-fun f ((x (_ BitVec 16)) (y (_ BitVec 16))) (_ BitVec 16)
  ((S (_ BitVec 16)))
  ((S (_ BitVec 16) (x y #x0001 (bvnot S) (bvand S S) (bvor S S) (bvxor S S) (bvshl S S) (bvsub S S)))))
(declare-var x (_ BitVec 16))
(declare-var y (_ BitVec 16))
(constraint (= (f x y) (bvadd x y)))
(check-synth)
