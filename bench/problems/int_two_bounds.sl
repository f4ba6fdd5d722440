; A number within bounds, and by how much it was outside.
; leaves: 6
(set-logic LIA)
(synth-fun inside ((x Int) (a Int) (b Int)) Int)
(synth-fun rest ((x Int) (a Int) (b Int)) Int)
(declare-var x Int)
(declare-var a Int)
(declare-var b Int)
(assume (<= a b))
(constraint (= (+ (inside x a b) (rest x a b)) x))
(constraint (and (<= a (inside x a b)) (<= (inside x a b) b)))
(constraint (=> (and (<= a x) (<= x b)) (= (inside x a b) x)))
(check-synth)
