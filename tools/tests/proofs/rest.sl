(set-logic LIA)
(synth-fun f ((x Int)) Int ((S Int)) ((S Int (0 x))))
(declare-var x Int)
(constraint (not (= (mod (f x) 3) 5)))
(check-synth)
(
(define-fun f ((z Int)) Int z)
)
(tree (split (atleast 2 (2 (- 1)))) (split (atleast (- 5) (2 1))) (farkas 1 1) (shown) (shown))
