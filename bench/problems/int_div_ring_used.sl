; How many places of a ring of 8 are in use, from the place that is read next to the place that is written next.
(set-logic LIA)
(synth-fun f ((r Int) (w Int)) Int
  ((S Int) (K Int))
  ((S Int (r w 1 (+ S S) (- S S) (mod S K)))
   (K Int (8))))
(declare-var r Int)
(declare-var w Int)
(assume (and (<= 0 r) (< r 8) (<= 0 w) (< w 8)))
(constraint (= (f r w) (ite (<= r w) (- w r) (+ (- w r) 8))))
(check-synth)
