(set-logic LIA)
(synth-fun f ((x Int)) Int)
(constraint 5)
(check-synth)
