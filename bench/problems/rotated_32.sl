; A rotation by one, by shifts, at width 32.
(set-logic BV)
(synth-fun f ((x (_ BitVec 32))) (_ BitVec 32)
  ((S (_ BitVec 32)))
  ((S (_ BitVec 32) (x #x00000001 #x0000001f (bvand S S) (bvor S S) (bvadd S S) (bvsub S S) (bvshl S S) (bvlshr S S)))))
(declare-var x (_ BitVec 32))
(constraint (= (f x) ((_ rotate_left 1) x)))
(check-synth)
