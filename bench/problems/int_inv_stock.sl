; A stock that is filled up when it is low.
(set-logic LIA)
(synth-inv inv ((stock Int) (ordered Int)))
(define-fun pre ((stock Int) (ordered Int)) Bool (and (= stock 50) (= ordered 0)))
(define-fun trans ((stock Int) (ordered Int) (stock1 Int) (ordered1 Int)) Bool (or (and (= ordered 0) (>= stock 20) (<= stock1 stock) (>= stock1 (- stock 10)) (= ordered1 0)) (or (and (= ordered 0) (< stock 20) (= stock1 stock) (= ordered1 1)) (and (= ordered 1) (= stock1 (+ stock 40)) (= ordered1 0)))))
(define-fun post ((stock Int) (ordered Int)) Bool (and (<= 0 stock) (<= stock 60)))
(inv-constraint inv pre trans post)
(check-synth)
