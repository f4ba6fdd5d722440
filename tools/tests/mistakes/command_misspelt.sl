(set-logic BV)
(sinth-fun f ((x (_ BitVec 8))) (_ BitVec 8))
(check-synth)
