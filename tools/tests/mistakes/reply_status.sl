(set-logic LIA)
(synth-fun f ((x Int)) Int ((S Int)) ((S Int (x 0))))
(declare-var x Int)
(constraint (= (f x) x))
(check-synth)
unsat
((define-fun f ((x Int)) Int x))
