; A quotient by a negative number.
(set-logic LIA)
(synth-fun f ((x Int)) Int
  ((S Int) (K Int))
  ((S Int (x 1 (+ S S) (div S K)))
   (K Int ((- 3) (- 2) 2))))
(declare-var x Int)
(constraint (= (f x) (- (div x 3))))
(check-synth)
