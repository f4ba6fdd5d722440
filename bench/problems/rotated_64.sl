; A rotation by one, by shifts, at width 64.
(set-logic BV)
(synth-fun f ((x (_ BitVec 64))) (_ BitVec 64)
  ((S (_ BitVec 64)))
  ((S (_ BitVec 64) (x #x0000000000000001 #x000000000000003f (bvand S S) (bvor S S) (bvadd S S) (bvsub S S) (bvshl S S) (bvlshr S S)))))
(declare-var x (_ BitVec 64))
(constraint (= (f x) ((_ rotate_left 1) x)))
(check-synth)
