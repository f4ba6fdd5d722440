; The greatest common divisor by subtraction: the greater of a and b loses the smaller, until both are equal. Neither grows, and at the end a is above 0. Shows: four bounds, without a grammar.
(set-logic LIA)
(synth-inv inv ((a Int) (b Int) (n Int) (m Int)))
(define-fun pre ((a Int) (b Int) (n Int) (m Int)) Bool (and (= a n) (= b m) (> n 0) (> m 0)))
(define-fun trans ((a Int) (b Int) (n Int) (m Int) (a1 Int) (b1 Int) (n1 Int) (m1 Int)) Bool
  (and (= n1 n) (= m1 m)
    (or (and (> a b) (= a1 (- a b)) (= b1 b)) (and (< a b) (= b1 (- b a)) (= a1 a)))))
(define-fun post ((a Int) (b Int) (n Int) (m Int)) Bool (=> (= a b) (and (> a 0) (<= a n) (<= b m))))
(inv-constraint inv pre trans post)
(check-synth)
