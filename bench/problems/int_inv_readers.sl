; Readers, or one writer.
(set-logic LIA)
(synth-inv inv ((readers Int) (writer Int)))
(define-fun pre ((readers Int) (writer Int)) Bool (and (= readers 0) (= writer 0)))
(define-fun trans ((readers Int) (writer Int) (readers1 Int) (writer1 Int)) Bool (or (or (and (= writer 0) (= readers1 (+ readers 1)) (= writer1 writer)) (and (> readers 0) (= readers1 (- readers 1)) (= writer1 writer))) (or (and (= readers 0) (= writer 0) (= readers1 0) (= writer1 1)) (and (= writer 1) (= readers1 readers) (= writer1 0)))))
(define-fun post ((readers Int) (writer Int)) Bool (or (= readers 0) (= writer 0)))
(inv-constraint inv pre trans post)
(check-synth)
