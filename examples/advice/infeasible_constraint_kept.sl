; No byte is above 255, so the first constraint can't be met.
; answer: infeasible
(set-logic BV)
(synth-fun f ((x (_ BitVec 8))) (_ BitVec 8)
  ((S (_ BitVec 8)))
  ((S (_ BitVec 8) (x (bvadd x #x01) (bvor x #x01)))))
(declare-var x (_ BitVec 8))
(constraint (bvugt (f x) x))
(constraint (= ((_ extract 0 0) (f x)) #b1))
(check-synth)
