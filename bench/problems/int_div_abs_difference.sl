; The distance of two numbers, by choices.
(set-logic LIA)
(synth-fun f ((x Int) (y Int)) Int)
(declare-var x Int)
(declare-var y Int)
(constraint (= (f x y) (abs (- x y))))
(check-synth)
