; The next multiple of 8: the reference divides, the answer takes a remainder off.
(set-logic LIA)
(synth-fun f ((x Int)) Int
  ((S Int) (K Int))
  ((S Int (x 7 8 (+ S S) (- S S) (mod S K)))
   (K Int (8))))
(declare-var x Int)
(constraint (= (f x) (* 8 (div (+ x 7) 8))))
(check-synth)
