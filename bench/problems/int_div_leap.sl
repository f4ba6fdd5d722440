; Leap years.
(set-logic LIA)
(define-fun fourth ((y Int)) Bool (= 0 (mod y 4)))
(define-fun hundredth ((y Int)) Bool (= 0 (mod y 100)))
(define-fun four_hundredth ((y Int)) Bool (= 0 (mod y 400)))
(synth-fun leap ((y Int)) Bool
  ((B Bool))
  ((B Bool ((fourth y) (hundredth y) (four_hundredth y) (not B) (and B B) (or B B)))))
(declare-var y Int)
(constraint (= (leap y) (ite (= 0 (mod y 100)) (= 0 (mod (div y 100) 4)) (= 0 (mod y 4)))))
(check-synth)
