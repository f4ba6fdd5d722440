(set-logic BV)
(synth-fun f ((x (BitVec 8))) (BitVec 8))
