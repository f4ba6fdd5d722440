; Bubble sort: j runs below i, which goes down from n - 1; the places j and j + 1 are within the array. Shows: bounds of a loop within a loop, without a grammar.
(set-logic LIA)
(synth-inv inv ((i Int) (j Int) (n Int)))
(define-fun pre ((i Int) (j Int) (n Int)) Bool (and (= i (- n 1)) (= j 0) (>= n 1)))
(define-fun trans ((i Int) (j Int) (n Int) (i1 Int) (j1 Int) (n1 Int)) Bool
  (and (= n1 n)
    (or (and (< j i) (= j1 (+ j 1)) (= i1 i)) (and (>= j i) (> i 0) (= i1 (- i 1)) (= j1 0)))))
(define-fun post ((i Int) (j Int) (n Int)) Bool (=> (< j i) (and (<= 0 j) (< (+ j 1) n))))
(inv-constraint inv pre trans post)
(check-synth)
