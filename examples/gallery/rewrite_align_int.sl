; The next multiple of 16 at or above an address. Shows: an answer by properties over integers, without a reference.
(set-logic LIA)
(synth-fun align ((a Int)) Int
  ((S Int) (N Int))
  ((S Int (a 15 (+ S S) (- S S) (* N S) (div S N)))
   (N Int (16))))
(declare-var a Int)
(constraint (= 0 (mod (align a) 16)))
(constraint (and (<= a (align a)) (< (align a) (+ a 16))))
(check-synth)
