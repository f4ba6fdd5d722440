; One of two numbers, by a truth value that a comparison gives.
; leaves: 3
(set-logic LIA)
(synth-fun f ((x Int) (y Int) (z Int)) Int)
(declare-var x Int)
(declare-var y Int)
(declare-var z Int)
(constraint (= (f x y z) (ite (= x y) z (ite (= y z) x y))))
(check-synth)
