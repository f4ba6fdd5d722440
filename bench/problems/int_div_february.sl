; The days of February, where the year isn't divisible by 100.
(set-logic LIA)
(synth-fun f ((y Int)) Int
  ((S Int) (C Bool) (R Int))
  ((S Int (28 29 (ite C S S)))
   (C Bool ((= R R)))
   (R Int (0 (mod y 4) (mod y 100)))))
(declare-var y Int)
(assume (distinct 0 (mod y 100)))
(constraint (= (f y) (+ 28 (- (div (+ y 4) 4) (div (+ y 3) 4)))))
(check-synth)
