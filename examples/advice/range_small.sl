; The same without that number.
(set-logic LIA)
(synth-fun f () Int ((S Int)) ((S Int (1 (+ S S)))))
(synth-fun g () Int ((S Int)) ((S Int (1 (+ S S)))))
(constraint (= (+ f g) 5))
(check-synth)
