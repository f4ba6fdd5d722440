; Whether a number is between two others.
(set-logic LIA)
(synth-fun f ((x Int) (a Int) (b Int)) Bool)
(declare-var x Int)
(declare-var a Int)
(declare-var b Int)
(constraint (= (f x a b) (and (<= a x) (<= x b))))
(check-synth)
