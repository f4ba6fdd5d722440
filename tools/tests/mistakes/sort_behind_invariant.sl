(set-logic LIA)
(synth-inv i ((x Int)) Bool)
