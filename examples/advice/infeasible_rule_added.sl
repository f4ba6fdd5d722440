; The same with a rule that can be used twice.
(set-logic BV)
(synth-fun f ((x (_ BitVec 8))) (_ BitVec 8)
  ((S (_ BitVec 8)))
  ((S (_ BitVec 8) (x (bvadd S #x01)))))
(declare-var x (_ BitVec 8))
(constraint (= (f x) (bvadd x #x02)))
(check-synth)
