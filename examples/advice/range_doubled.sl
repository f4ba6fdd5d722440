; Twice a number that is almost 2^127 leaves the range; of two functions nothing is sought after that.
; answer: fail Range
(set-logic LIA)
(synth-fun f () Int ((S Int)) ((S Int (1 170141183460469231731687303715884105727 (+ S S)))))
(synth-fun g () Int ((S Int)) ((S Int (1 (+ S S)))))
(constraint (= (+ f g) 5))
(check-synth)
