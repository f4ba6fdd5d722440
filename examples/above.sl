; No member of the grammar is above every x: the greatest byte has none above it. Both members were tried.
; answer: infeasible
(set-logic BV)
(synth-fun f ((x (_ BitVec 8))) (_ BitVec 8)
  ((S (_ BitVec 8)))
  ((S (_ BitVec 8) (x (bvadd x #x01)))))
(declare-var x (_ BitVec 8))
(constraint (bvugt (f x) x))
(check-synth)
