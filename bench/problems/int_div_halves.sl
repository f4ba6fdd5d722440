; A number in two parts that differ by at most one, the greater one second.
(set-logic LIA)
(synth-fun f ((x Int)) Int
  ((S Int) (K Int))
  ((S Int (x 1 (+ S S) (- S S) (div S K)))
   (K Int (2))))
(synth-fun g ((x Int)) Int
  ((S Int) (K Int))
  ((S Int (x 1 (+ S S) (- S S) (div S K)))
   (K Int (2))))
(declare-var x Int)
(constraint (= (+ (f x) (g x)) x))
(constraint (and (<= (f x) (g x)) (<= (g x) (+ (f x) 1))))
(check-synth)
