; A bound of the absolute value of a sum.
(set-logic LIA)
(synth-fun f ((x Int) (y Int)) Int
  ((S Int))
  ((S Int (x y (+ S S) (- S S) (abs S)))))
(declare-var x Int)
(declare-var y Int)
(constraint (<= (abs (+ x y)) (f x y)))
(constraint (<= (abs (- x y)) (f x y)))
(constraint (<= (f x y) (+ (abs x) (abs y))))
(check-synth)
