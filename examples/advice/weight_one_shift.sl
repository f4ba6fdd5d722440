; The same by one shift.
(set-logic BV)
(define-fun far ((x (_ BitVec 64))) (_ BitVec 64) (bvshl x #x000000000000003c))
(synth-fun f ((x (_ BitVec 64))) (_ BitVec 64)
  ((S (_ BitVec 64)))
  ((S (_ BitVec 64) (x (far S) #x0000000000000001))))
(declare-var x (_ BitVec 64))
(constraint (= (f x) (far x)))
(check-synth)
