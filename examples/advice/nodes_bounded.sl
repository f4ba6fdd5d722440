; The same of numbers that aren't negative.
; words: --nodes 10
(set-logic LIA)
(define-fun size ((n Int)) Int (ite (<= 0 n) n (- n)))
(synth-fun sum ((a Int) (b Int) (c Int) (d Int)) Int
  ((S Int))
  ((S Int (a b c d (+ S S) (size S)))))
(declare-var a Int)
(declare-var b Int)
(declare-var c Int)
(declare-var d Int)
(assume (<= 0 a))
(assume (<= 0 b))
(assume (<= 0 c))
(assume (<= 0 d))
(constraint (= (sum a b c d) (+ (size a) (size b) (size c) (size d))))
(check-synth)
