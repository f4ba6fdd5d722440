; A number below 12 from its remainders by 3 and 4.
(set-logic LIA)
(synth-fun f ((a Int) (b Int)) Int
  ((S Int) (K Int) (M Int))
  ((S Int (a b (+ S S) (- S S) (* K S) (mod S M)))
   (K Int (4 9))
   (M Int (12))))
(declare-var x Int)
(assume (and (<= 0 x) (< x 12)))
(constraint (= (f (mod x 3) (mod x 4)) x))
(check-synth)
