; A rotation by one, by shifts, at width 8.
(set-logic BV)
(synth-fun f ((x (_ BitVec 8))) (_ BitVec 8)
  ((S (_ BitVec 8)))
  ((S (_ BitVec 8) (x #x01 #x07 (bvand S S) (bvor S S) (bvadd S S) (bvsub S S) (bvshl S S) (bvlshr S S)))))
(declare-var x (_ BitVec 8))
(constraint (= (f x) ((_ rotate_left 1) x)))
(check-synth)
