; Binary search: lo and hi enclose the place; each step moves one of them to the middle, which may be any place between. At the end lo is a place of the array or its end. Shows: bounds of two indices, without a grammar.
(set-logic LIA)
(synth-inv inv ((lo Int) (hi Int) (n Int)))
(define-fun pre ((lo Int) (hi Int) (n Int)) Bool (and (= lo 0) (= hi n) (>= n 0)))
(define-fun trans ((lo Int) (hi Int) (n Int) (lo1 Int) (hi1 Int) (n1 Int)) Bool
  (and (< lo hi) (= n1 n)
    (or (and (< lo lo1) (<= lo1 hi) (= hi1 hi)) (and (= lo1 lo) (<= lo hi1) (< hi1 hi)))))
(define-fun post ((lo Int) (hi Int) (n Int)) Bool (=> (>= lo hi) (and (<= 0 lo) (<= lo n))))
(inv-constraint inv pre trans post)
(check-synth)
