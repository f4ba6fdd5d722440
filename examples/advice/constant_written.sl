; The same, with the constant written somewhere in the file: now it costs 1.
(set-logic BV)
(define-fun mask () (_ BitVec 32) #xfffffff0)
(synth-fun f ((x (_ BitVec 32))) (_ BitVec 32)
  ((S (_ BitVec 32)))
  ((S (_ BitVec 32) (x (Constant (_ BitVec 32)) (bvand S S)))))
(declare-var x (_ BitVec 32))
(constraint (= (f x) (bvshl (bvlshr x #x00000004) #x00000004)))
(check-synth)
