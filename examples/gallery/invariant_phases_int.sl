; A counter goes up to n and then down to 0; pc says in which phase it is: 0 up, 1 down, 2 done. Shows: what holds in one phase alone, without a grammar.
(set-logic LIA)
(synth-inv inv ((pc Int) (i Int) (n Int)))
(define-fun pre ((pc Int) (i Int) (n Int)) Bool (and (= pc 0) (= i 0) (>= n 0)))
(define-fun trans ((pc Int) (i Int) (n Int) (pc1 Int) (i1 Int) (n1 Int)) Bool
  (and (= n1 n)
    (or (and (= pc 0) (< i n) (= i1 (+ i 1)) (= pc1 0)) (and (= pc 0) (>= i n) (= i1 i) (= pc1 1))
        (and (= pc 1) (> i 0) (= i1 (- i 1)) (= pc1 1)) (and (= pc 1) (<= i 0) (= i1 i) (= pc1 2)))))
(define-fun post ((pc Int) (i Int) (n Int)) Bool (and (=> (= pc 2) (= i 0)) (=> (= pc 1) (<= i n))))
(inv-constraint inv pre trans post)
(check-synth)
