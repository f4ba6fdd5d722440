; The middle of an interval, rounded down, without the sum of its ends, which may overflow. Shows: a grammar that hasn't what is to be avoided.
(set-logic LIA)
(synth-fun middle ((lo Int) (hi Int)) Int
  ((S Int) (D Int))
  ((S Int (lo hi (+ S D)))
   (D Int ((- hi lo) (div D 2)))))
(declare-var lo Int)
(declare-var hi Int)
(assume (<= lo hi))
(constraint (= (middle lo hi) (div (+ lo hi) 2)))
(check-synth)
