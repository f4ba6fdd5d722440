; Pages of 16 lines.
(set-logic LIA)
(synth-inv inv ((page Int) (line Int) (all Int)))
(define-fun pre ((page Int) (line Int) (all Int)) Bool (and (= page 0) (= line 0) (= all 0)))
(define-fun trans ((page Int) (line Int) (all Int) (page1 Int) (line1 Int) (all1 Int)) Bool (and (= all1 (+ all 1)) (or (and (< line 15) (= page1 page) (= line1 (+ line 1))) (and (= line 15) (= page1 (+ page 1)) (= line1 0)))))
(define-fun post ((page Int) (line Int) (all Int)) Bool (and (<= 0 line) (<= line 15) (= all (+ (* 16 page) line))))
(inv-constraint inv pre trans post)
(check-synth)
