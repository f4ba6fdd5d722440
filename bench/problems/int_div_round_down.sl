; The multiple of 10 at or below a number.
(set-logic LIA)
(synth-fun f ((x Int)) Int
  ((S Int) (K Int))
  ((S Int (x 1 (+ S S) (- S S) (* K S) (div S K)))
   (K Int (10))))
(declare-var x Int)
(constraint (= (f x) (- x (mod x 10))))
(check-synth)
