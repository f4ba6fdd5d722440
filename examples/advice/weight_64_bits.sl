; Sixty shifts by a variable, of 64 bits: the query is too heavy to be built.
; answer: fail Weight
(set-logic BV)
(define-fun far ((x (_ BitVec 64)) (n (_ BitVec 64))) (_ BitVec 64)
  (bvshl (bvshl (bvshl (bvshl (bvshl (bvshl (bvshl (bvshl (bvshl (bvshl (bvshl (bvshl (bvshl (bvshl (bvshl (bvshl (bvshl (bvshl (bvshl (bvshl (bvshl (bvshl (bvshl (bvshl (bvshl (bvshl (bvshl (bvshl (bvshl (bvshl (bvshl (bvshl (bvshl (bvshl (bvshl (bvshl (bvshl (bvshl (bvshl (bvshl (bvshl (bvshl (bvshl (bvshl (bvshl (bvshl (bvshl (bvshl (bvshl (bvshl (bvshl (bvshl (bvshl (bvshl (bvshl (bvshl (bvshl (bvshl (bvshl (bvshl x n) n) n) n) n) n) n) n) n) n) n) n) n) n) n) n) n) n) n) n) n) n) n) n) n) n) n) n) n) n) n) n) n) n) n) n) n) n) n) n) n) n) n) n) n) n) n) n) n) n) n) n) n) n) n) n) n) n) n) n))
(synth-fun f ((x (_ BitVec 64)) (n (_ BitVec 64))) (_ BitVec 64)
  ((S (_ BitVec 64)))
  ((S (_ BitVec 64) (x n (far S S)))))
(declare-var x (_ BitVec 64))
(declare-var n (_ BitVec 64))
(constraint (= (f x n) (far x n)))
(check-synth)
