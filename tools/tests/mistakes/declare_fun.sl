(set-logic BV)
(declare-fun x () (_ BitVec 8))
(check-synth)
