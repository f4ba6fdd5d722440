; Two functions that undo each other and aren't the identity.
(set-logic LIA)
(synth-fun f ((x Int)) Int)
(synth-fun g ((x Int)) Int)
(declare-var x Int)
(constraint (= (g (f x)) x))
(constraint (= (f (g x)) x))
(constraint (> (f x) x))
(check-synth)
