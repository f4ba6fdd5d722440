; A wheel of 12 stays between 0 and 11.
(set-logic LIA)
(synth-inv inv ((x Int)))
(define-fun pre ((x Int)) Bool (= x 0))
(define-fun trans ((x Int) (x1 Int)) Bool (= x1 (mod (+ x 1) 12)))
(define-fun post ((x Int)) Bool (and (<= 0 x) (< x 12)))
(inv-constraint inv pre trans post)
(check-synth)
