; Five times a number, by a shift, at width 32.
(set-logic BV)
(synth-fun f ((x (_ BitVec 32))) (_ BitVec 32)
  ((S (_ BitVec 32)))
  ((S (_ BitVec 32) (x #x00000001 #x00000002 (bvadd S S) (bvsub S S) (bvshl S S) (bvlshr S S) (bvand S S) (bvor S S)))))
(declare-var x (_ BitVec 32))
(constraint (= (f x) (bvmul x #x00000005)))
(check-synth)
