(set-logic LIA)
(synth-inv inv ((x Int)))
(declare-primed-var x Int)
