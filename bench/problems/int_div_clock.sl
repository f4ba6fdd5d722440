; Minutes as hours and minutes.
(set-logic LIA)
(synth-fun h ((x Int)) Int
  ((S Int) (K Int))
  ((S Int (x 1 (+ S S) (- S S) (div S K)))
   (K Int (60))))
(synth-fun m ((x Int)) Int
  ((S Int) (K Int))
  ((S Int (x 1 (+ S S) (- S S) (mod S K)))
   (K Int (60))))
(declare-var x Int)
(constraint (= (+ (* 60 (h x)) (m x)) x))
(constraint (and (<= 0 (m x)) (< (m x) 60)))
(check-synth)
