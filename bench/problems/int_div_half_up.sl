; Half of a number, rounded up, by its properties.
(set-logic LIA)
(synth-fun f ((x Int)) Int
  ((S Int) (K Int))
  ((S Int (x 1 (+ S S) (- S S) (div S K)))
   (K Int (2 3))))
(declare-var x Int)
(constraint (<= x (+ (f x) (f x))))
(constraint (< (+ (f x) (f x)) (+ x 2)))
(check-synth)
