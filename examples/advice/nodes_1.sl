; That a candidate is the greater of two integers takes more than one case.
; words: --nodes 1
; answer: fail Nodes
(set-logic LIA)
(synth-fun greater ((x Int) (y Int)) Int
  ((I Int) (B Bool))
  ((I Int (x y (ite B I I)))
   (B Bool ((<= I I)))))
(declare-var x Int)
(declare-var y Int)
(constraint (>= (greater x y) x))
(constraint (>= (greater x y) y))
(constraint (or (= (greater x y) x) (= (greater x y) y)))
(check-synth)
