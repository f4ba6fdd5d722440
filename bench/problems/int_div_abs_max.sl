; The greater of two numbers by their distance.
(set-logic LIA)
(synth-fun f ((x Int) (y Int)) Int
  ((S Int) (K Int))
  ((S Int (x y (+ S S) (- S S) (abs S) (div S K)))
   (K Int (2))))
(declare-var x Int)
(declare-var y Int)
(constraint (= (f x y) (ite (<= x y) y x)))
(check-synth)
