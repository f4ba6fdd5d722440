; Bytes that are copied: what is done and what is left.
(set-logic LIA)
(synth-inv inv ((done Int) (left Int) (n Int)))
(define-fun pre ((done Int) (left Int) (n Int)) Bool (and (= done 0) (= left n) (>= n 0)))
(define-fun trans ((done Int) (left Int) (n Int) (done1 Int) (left1 Int) (n1 Int)) Bool (and (> left 0) (= done1 (+ done 1)) (= left1 (- left 1)) (= n1 n)))
(define-fun post ((done Int) (left Int) (n Int)) Bool (=> (not (> left 0)) (= done n)))
(inv-constraint inv pre trans post)
(check-synth)
