; A number below 15 from its remainders by 3 and 5.
(set-logic LIA)
(synth-fun f ((a Int) (b Int)) Int
  ((S Int) (K Int) (M Int))
  ((S Int (a b (+ S S) (* K S) (mod S M)))
   (K Int (6 10))
   (M Int (15))))
(declare-var x Int)
(assume (and (<= 0 x) (< x 15)))
(constraint (= (f (mod x 3) (mod x 5)) x))
(check-synth)
