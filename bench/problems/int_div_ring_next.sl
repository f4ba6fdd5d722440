; The place after a place in a ring of 16.
(set-logic LIA)
(synth-fun f ((i Int)) Int
  ((S Int) (K Int))
  ((S Int (i 0 1 (+ S S) (- S S) (mod S K)))
   (K Int (15 16))))
(declare-var i Int)
(assume (and (<= 0 i) (< i 16)))
(constraint (= (f i) (ite (= i 15) 0 (+ i 1))))
(check-synth)
