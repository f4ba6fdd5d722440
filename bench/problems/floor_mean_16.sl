; The mean rounded down, without a carry out, at width 16.
(set-logic BV)
(synth-fun f ((x (_ BitVec 16)) (y (_ BitVec 16))) (_ BitVec 16)
  ((S (_ BitVec 16)))
  ((S (_ BitVec 16) (x y (bvand S S) (bvor S S) (bvxor S S) (bvadd S S) (bvsub S S) (bvlshr S #x0001)))))
(declare-var x (_ BitVec 16))
(declare-var y (_ BitVec 16))
(constraint (= (f x y) ((_ extract 15 0) (bvlshr (bvadd ((_ zero_extend 1) x) ((_ zero_extend 1) y)) #b00000000000000001))))
(check-synth)
