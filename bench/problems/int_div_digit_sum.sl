; The sum of the digits of a number below 100.
(set-logic LIA)
(synth-fun f ((x Int)) Int
  ((S Int) (K Int))
  ((S Int (x (+ S S) (- S S) (* K S) (div S K)))
   (K Int (9 10))))
(declare-var x Int)
(assume (and (<= 0 x) (< x 100)))
(constraint (= (f x) (+ (div x 10) (mod x 10))))
(check-synth)
