; How many pages of 20 lines so many lines fill.
(set-logic LIA)
(synth-fun f ((n Int)) Int
  ((S Int) (K Int))
  ((S Int (n 1 19 (+ S S) (- S S) (div S K)))
   (K Int (20))))
(declare-var n Int)
(constraint (<= n (* 20 (f n))))
(constraint (< (* 20 (- (f n) 1)) n))
(check-synth)
