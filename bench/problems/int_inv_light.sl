; A traffic light of three colours, with a timer.
(set-logic LIA)
(synth-inv inv ((colour Int) (t Int)))
(define-fun pre ((colour Int) (t Int)) Bool (and (= colour 0) (= t 30)))
(define-fun trans ((colour Int) (t Int) (colour1 Int) (t1 Int)) Bool (or (and (> t 0) (= colour1 colour) (= t1 (- t 1))) (or (and (= t 0) (< colour 2) (= colour1 (+ colour 1)) (= t1 30)) (and (= t 0) (= colour 2) (= colour1 0) (= t1 30)))))
(define-fun post ((colour Int) (t Int)) Bool (and (<= 0 t) (<= t 30) (<= 0 colour) (<= colour 2)))
(inv-constraint inv pre trans post)
(check-synth)
