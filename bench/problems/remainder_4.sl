; A remainder, by a quotient, at width 4.
(set-logic BV)
(synth-fun f ((x (_ BitVec 4)) (y (_ BitVec 4))) (_ BitVec 4)
  ((S (_ BitVec 4)))
  ((S (_ BitVec 4) (x y (bvudiv S S) (bvmul S S) (bvsub S S) (bvadd S S) (bvand S S) (bvor S S)))))
(declare-var x (_ BitVec 4))
(declare-var y (_ BitVec 4))
(constraint (= (f x y) (bvurem x y)))
(check-synth)
