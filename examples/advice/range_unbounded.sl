; At most a hundredth more, and from 10^37 on at least two more: a hundredfold of such a number leaves 128 bits.
; answer: fail Range
(set-logic LIA)
(synth-fun more ((x Int)) Int
  ((S Int))
  ((S Int (x 1 (+ S S)))))
(declare-var x Int)
(assume (>= x 1000))
(constraint (>= (more x) x))
(constraint (=> (> x 10000000000000000000000000000000000000) (>= (more x) (+ x 2))))
(constraint (<= (* 100 (more x)) (* 101 x)))
(check-synth)
