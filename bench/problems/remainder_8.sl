; A remainder, by a quotient, at width 8.
(set-logic BV)
(synth-fun f ((x (_ BitVec 8)) (y (_ BitVec 8))) (_ BitVec 8)
  ((S (_ BitVec 8)))
  ((S (_ BitVec 8) (x y (bvudiv S S) (bvmul S S) (bvsub S S) (bvadd S S) (bvand S S) (bvor S S)))))
(declare-var x (_ BitVec 8))
(declare-var y (_ BitVec 8))
(constraint (= (f x y) (bvurem x y)))
(check-synth)
