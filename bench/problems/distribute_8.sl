; A product, without a sum in a factor, at width 8.
(set-logic BV)
(synth-fun f ((x (_ BitVec 8)) (y (_ BitVec 8))) (_ BitVec 8)
  ((S (_ BitVec 8)))
  ((S (_ BitVec 8) (x y (bvmul S S) (bvadd S S) (bvsub S S) (bvand S S) (bvor S S) (bvxor S S)))))
(declare-var x (_ BitVec 8))
(declare-var y (_ BitVec 8))
(constraint (= (f x y) (bvmul x (bvadd y #x01))))
(check-synth)
