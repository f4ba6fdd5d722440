; A count of some places of an array.
(set-logic LIA)
(synth-inv inv ((i Int) (count Int) (n Int)))
(define-fun pre ((i Int) (count Int) (n Int)) Bool (and (= i 0) (= count 0) (>= n 0)))
(define-fun trans ((i Int) (count Int) (n Int) (i1 Int) (count1 Int) (n1 Int)) Bool (and (< i n) (= i1 (+ i 1)) (= n1 n) (or (= count1 count) (= count1 (+ count 1)))))
(define-fun post ((i Int) (count Int) (n Int)) Bool (=> (not (< i n)) (and (<= 0 count) (<= count n))))
(inv-constraint inv pre trans post)
(check-synth)
