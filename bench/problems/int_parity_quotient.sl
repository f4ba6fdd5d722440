; The quotient by three, of a number with its remainder.
(set-logic LIA)
(synth-fun f ((q Int) (r Int)) Int)
(declare-var q Int)
(declare-var r Int)
(assume (and (<= 0 r) (<= r 2)))
(constraint (<= (* 3 (f q r)) (+ (* 3 q) r)))
(constraint (> (+ (* 3 (f q r)) 3) (+ (* 3 q) r)))
(check-synth)
