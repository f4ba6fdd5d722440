; Two sorted arrays of n and m are merged: each step takes one from either. When both are empty, n + m were written. Shows: a sum that stays right, beside two bounds, without a grammar.
(set-logic LIA)
(synth-inv inv ((i Int) (j Int) (k Int) (n Int) (m Int)))
(define-fun pre ((i Int) (j Int) (k Int) (n Int) (m Int)) Bool (and (= i 0) (= j 0) (= k 0) (>= n 0) (>= m 0)))
(define-fun trans ((i Int) (j Int) (k Int) (n Int) (m Int) (i1 Int) (j1 Int) (k1 Int) (n1 Int) (m1 Int)) Bool
  (and (= n1 n) (= m1 m) (= k1 (+ k 1))
    (or (and (< i n) (= i1 (+ i 1)) (= j1 j)) (and (< j m) (= j1 (+ j 1)) (= i1 i)))))
(define-fun post ((i Int) (j Int) (k Int) (n Int) (m Int)) Bool (=> (and (>= i n) (>= j m)) (= k (+ n m))))
(inv-constraint inv pre trans post)
(check-synth)
