; The next multiple of 8, by its properties.
(set-logic LIA)
(synth-fun f ((x Int)) Int
  ((S Int) (K Int))
  ((S Int (x 1 7 (+ S S) (- S S) (* K S) (div S K)))
   (K Int (8))))
(declare-var x Int)
(constraint (= (mod (f x) 8) 0))
(constraint (and (<= x (f x)) (< (f x) (+ x 8))))
(check-synth)
