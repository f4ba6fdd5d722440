; The last digit of a number, without a remainder in the answer.
(set-logic LIA)
(synth-fun f ((x Int)) Int
  ((S Int) (K Int))
  ((S Int (x 1 (+ S S) (- S S) (* K S) (div S K)))
   (K Int (10))))
(declare-var x Int)
(constraint (= (f x) (mod x 10)))
(check-synth)
