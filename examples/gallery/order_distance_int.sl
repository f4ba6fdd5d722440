; How far two numbers are from each other. Shows: `abs` in a grammar, known by two bounds that are met.
(set-logic LIA)
(synth-fun distance ((x Int) (y Int)) Int
  ((S Int))
  ((S Int (x y (+ S S) (- S S) (abs S)))))
(declare-var x Int)
(declare-var y Int)
(constraint (and (<= (- x y) (distance x y)) (<= (- y x) (distance x y))))
(constraint (or (= (distance x y) (- x y)) (= (distance x y) (- y x))))
(check-synth)
