(set-logic LIA)
(synth-fun f ((x Int)) Int)
(constraint (= (f 0xff) 1))
(check-synth)
