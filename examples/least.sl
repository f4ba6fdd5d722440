; One more than the greater of two numbers. In mode least the body is the smallest that there is, of size 8; without it
; one of size 10 is found, by cases whose parts are small.
; words: --mode least
(set-logic LIA)
(synth-fun f ((x Int) (y Int)) Int
  ((S Int) (C Bool))
  ((S Int (x y 1 (+ S S) (ite C S S)))
   (C Bool ((<= S S)))))
(declare-var x Int)
(declare-var y Int)
(constraint (> (f x y) x))
(constraint (> (f x y) y))
(constraint (or (= (f x y) (+ x 1)) (= (f x y) (+ y 1))))
(check-synth)
