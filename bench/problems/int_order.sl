; Which of two numbers is less: -1, 0 or 1.
; leaves: 3
(set-logic LIA)
(synth-fun f ((x Int) (y Int)) Int)
(declare-var x Int)
(declare-var y Int)
(constraint (= (f x y) (ite (< x y) (- 1) (ite (> x y) 1 0))))
(check-synth)
