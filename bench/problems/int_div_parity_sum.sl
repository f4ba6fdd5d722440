; The parity of a sum, from the parities of its parts.
(set-logic LIA)
(synth-fun f ((x Int) (y Int)) Int
  ((S Int) (K Int))
  ((S Int (x y (+ S S) (- S S) (mod S K)))
   (K Int (2))))
(declare-var x Int)
(declare-var y Int)
(constraint (= (f x y) (mod (+ (mod x 2) (mod y 2)) 2)))
(check-synth)
