; The sum of four magnitudes: each number may have either sign.
; words: --nodes 10
; answer: fail Nodes
(set-logic LIA)
(define-fun size ((n Int)) Int (ite (<= 0 n) n (- n)))
(synth-fun sum ((a Int) (b Int) (c Int) (d Int)) Int
  ((S Int))
  ((S Int (a b c d (+ S S) (size S)))))
(declare-var a Int)
(declare-var b Int)
(declare-var c Int)
(declare-var d Int)
(constraint (= (sum a b c d) (+ (size a) (size b) (size c) (size d))))
(check-synth)
