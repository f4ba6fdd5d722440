; The same up to a million.
(set-logic LIA)
(synth-fun more ((x Int)) Int
  ((S Int))
  ((S Int (x 1 (+ S S)))))
(declare-var x Int)
(assume (>= x 1000))
(assume (<= x 1000000))
(constraint (>= (more x) x))
(constraint (=> (> x 10000000000000000000000000000000000000) (>= (more x) (+ x 2))))
(constraint (<= (* 100 (more x)) (* 101 x)))
(check-synth)
