; No member of the grammar adds 2: both were tried.
; answer: infeasible
(set-logic BV)
(synth-fun f ((x (_ BitVec 8))) (_ BitVec 8)
  ((S (_ BitVec 8)))
  ((S (_ BitVec 8) (x (bvadd x #x01)))))
(declare-var x (_ BitVec 8))
(constraint (= (f x) (bvadd x #x02)))
(check-synth)
