; A product, without a sum in a factor, at width 16.
(set-logic BV)
(synth-fun f ((x (_ BitVec 16)) (y (_ BitVec 16))) (_ BitVec 16)
  ((S (_ BitVec 16)))
  ((S (_ BitVec 16) (x y (bvmul S S) (bvadd S S) (bvsub S S) (bvand S S) (bvor S S) (bvxor S S)))))
(declare-var x (_ BitVec 16))
(declare-var y (_ BitVec 16))
(constraint (= (f x y) (bvmul x (bvadd y #x0001))))
(check-synth)
