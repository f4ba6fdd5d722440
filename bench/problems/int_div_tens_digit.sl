; The digit before the last one.
(set-logic LIA)
(synth-fun f ((x Int)) Int
  ((S Int) (K Int))
  ((S Int (x (+ S S) (- S S) (div S K) (mod S K)))
   (K Int (10 100))))
(declare-var x Int)
(constraint (= (f x) (- (div x 10) (* 10 (div x 100)))))
(check-synth)
