; Seven times a number, and five.
(set-logic LIA)
(synth-fun f ((x Int)) Int)
(declare-var x Int)
(constraint (= (f x) (+ (* 7 x) 5)))
(check-synth)
