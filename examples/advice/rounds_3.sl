; The mean of two bytes takes three counterexamples, as many as end the search.
; words: --rounds 3
; answer: fail Rounds
(set-logic BV)
(define-fun wide ((x (_ BitVec 8))) (_ BitVec 9) ((_ zero_extend 1) x))
(synth-fun mean ((x (_ BitVec 8)) (y (_ BitVec 8))) (_ BitVec 8)
  ((S (_ BitVec 8)))
  ((S (_ BitVec 8) (x y (bvand S S) (bvxor S S) (bvadd S S) (bvlshr S #x01)))))
(declare-var x (_ BitVec 8))
(declare-var y (_ BitVec 8))
(constraint (= (wide (mean x y)) (bvlshr (bvadd (wide x) (wide y)) #b000000001)))
(check-synth)
