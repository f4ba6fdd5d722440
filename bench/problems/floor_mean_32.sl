; The mean rounded down, without a carry out, at width 32.
(set-logic BV)
(synth-fun f ((x (_ BitVec 32)) (y (_ BitVec 32))) (_ BitVec 32)
  ((S (_ BitVec 32)))
  ((S (_ BitVec 32) (x y (bvand S S) (bvor S S) (bvxor S S) (bvadd S S) (bvsub S S) (bvlshr S #x00000001)))))
(declare-var x (_ BitVec 32))
(declare-var y (_ BitVec 32))
(constraint (= (f x y) ((_ extract 31 0) (bvlshr (bvadd ((_ zero_extend 1) x) ((_ zero_extend 1) y)) #b000000000000000000000000000000001))))
(check-synth)
