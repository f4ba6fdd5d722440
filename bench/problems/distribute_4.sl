; A product, without a sum in a factor, at width 4.
(set-logic BV)
(synth-fun f ((x (_ BitVec 4)) (y (_ BitVec 4))) (_ BitVec 4)
  ((S (_ BitVec 4)))
  ((S (_ BitVec 4) (x y (bvmul S S) (bvadd S S) (bvsub S S) (bvand S S) (bvor S S) (bvxor S S)))))
(declare-var x (_ BitVec 4))
(declare-var y (_ BitVec 4))
(constraint (= (f x y) (bvmul x (bvadd y #x1))))
(check-synth)
