; The last four bits cleared, by a constant that the file doesn't have: as one of 32 bits it is too large.
; answer: fail Size
(set-logic BV)
(synth-fun f ((x (_ BitVec 32))) (_ BitVec 32)
  ((S (_ BitVec 32)))
  ((S (_ BitVec 32) (x (Constant (_ BitVec 32)) (bvand S S)))))
(declare-var x (_ BitVec 32))
(constraint (= (f x) (bvshl (bvlshr x #x00000004) #x00000004)))
(check-synth)
