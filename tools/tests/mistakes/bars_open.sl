(set-logic BV)
(declare-var |a name (_ BitVec 8))
(check-synth)
