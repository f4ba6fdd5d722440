(set-logic LIA)
(synth-fun f ((x Int)) Int)
(constraint (= (f 007) 7))
