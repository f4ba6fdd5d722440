; Whether a number is even: whether twice its half is the number.
(set-logic LIA)
(synth-fun f ((x Int)) Bool
  ((B Bool) (S Int))
  ((B Bool ((= S S) (not B)))
   (S Int (0 1 x (+ S S) (mod S 2)))))
(declare-var x Int)
(constraint (= (f x) (= (* 2 (div x 2)) x)))
(check-synth)
