; Five times a number, by a shift, at width 16.
(set-logic BV)
(synth-fun f ((x (_ BitVec 16))) (_ BitVec 16)
  ((S (_ BitVec 16)))
  ((S (_ BitVec 16) (x #x0001 #x0002 (bvadd S S) (bvsub S S) (bvshl S S) (bvlshr S S) (bvand S S) (bvor S S)))))
(declare-var x (_ BitVec 16))
(constraint (= (f x) (bvmul x #x0005)))
(check-synth)
