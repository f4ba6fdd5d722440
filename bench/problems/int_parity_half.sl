; Half of an even number.
(set-logic LIA)
(synth-fun f ((k Int)) Int)
(declare-var k Int)
(constraint (= (+ (f k) (f k)) (+ (* 6 k) 4)))
(check-synth)
