; A remainder, by a quotient, at width 16.
(set-logic BV)
(synth-fun f ((x (_ BitVec 16)) (y (_ BitVec 16))) (_ BitVec 16)
  ((S (_ BitVec 16)))
  ((S (_ BitVec 16) (x y (bvudiv S S) (bvmul S S) (bvsub S S) (bvadd S S) (bvand S S) (bvor S S)))))
(declare-var x (_ BitVec 16))
(declare-var y (_ BitVec 16))
(constraint (= (f x y) (bvurem x y)))
(check-synth)
