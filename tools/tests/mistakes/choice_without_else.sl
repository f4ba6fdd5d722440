(set-logic BV)
(synth-fun f ((x (_ BitVec 8))) (_ BitVec 8) ((S (_ BitVec 8)) (C Bool)) ((S (_ BitVec 8) (x (ite C S))) (C Bool ((bvult S S)))))
