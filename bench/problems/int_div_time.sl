; The minutes of a time of four digits, as 1430.
(set-logic LIA)
(synth-fun f ((t Int)) Int
  ((S Int) (K Int))
  ((S Int (t (+ S S) (- S S) (* K S) (div S K)))
   (K Int (40 60 100))))
(declare-var t Int)
(assume (and (<= 0 t) (< t 2400)))
(constraint (= (f t) (+ (* 60 (div t 100)) (mod t 100))))
(check-synth)
