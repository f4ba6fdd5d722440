; The mean of two bytes by the grammar that a function without one has: too many terms come before its body.
; answer: fail Bank
(set-logic BV)
(define-fun wide ((x (_ BitVec 8))) (_ BitVec 9) ((_ zero_extend 1) x))
(synth-fun mean ((x (_ BitVec 8)) (y (_ BitVec 8))) (_ BitVec 8))
(declare-var x (_ BitVec 8))
(declare-var y (_ BitVec 8))
(constraint (= (wide (mean x y)) (bvlshr (bvadd (wide x) (wide y)) #b000000001)))
(check-synth)
