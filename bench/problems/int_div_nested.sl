; A half and then a third is a sixth.
(set-logic LIA)
(synth-fun f ((x Int)) Int
  ((S Int) (K Int))
  ((S Int (x 1 (+ S S) (div S K)))
   (K Int (5 6))))
(declare-var x Int)
(constraint (= (f x) (div x 2 3)))
(check-synth)
