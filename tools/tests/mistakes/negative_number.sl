(set-logic LIA)
(synth-fun f ((x Int)) Int)
(constraint (= (f 0) -5))
