; Partition of an array: j runs to n, and i, the end of the smaller ones, goes on at some of its steps. At the end i is within the array. Shows: a chain of comparisons, without a grammar.
(set-logic LIA)
(synth-inv inv ((i Int) (j Int) (n Int)))
(define-fun pre ((i Int) (j Int) (n Int)) Bool (and (= i 0) (= j 0) (>= n 0)))
(define-fun trans ((i Int) (j Int) (n Int) (i1 Int) (j1 Int) (n1 Int)) Bool
  (and (< j n) (= j1 (+ j 1)) (= n1 n) (or (= i1 i) (= i1 (+ i 1)))))
(define-fun post ((i Int) (j Int) (n Int)) Bool (=> (>= j n) (and (<= 0 i) (<= i n))))
(inv-constraint inv pre trans post)
(check-synth)
