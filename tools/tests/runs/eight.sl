(set-logic LIA)
(synth-fun f () Int ((S Int)) ((S Int (1 (+ 1 S)))))
(constraint (= f 8))
(check-synth)
