; A sender with a window of 8 messages that aren't acknowledged.
(set-logic LIA)
(synth-inv inv ((sent Int) (acked Int)))
(define-fun pre ((sent Int) (acked Int)) Bool (and (= sent 0) (= acked 0)))
(define-fun trans ((sent Int) (acked Int) (sent1 Int) (acked1 Int)) Bool (or (and (< (- sent acked) 8) (= sent1 (+ sent 1)) (= acked1 acked)) (and (< acked sent) (= sent1 sent) (= acked1 (+ acked 1)))))
(define-fun post ((sent Int) (acked Int)) Bool (and (<= acked sent) (<= (- sent acked) 8)))
(inv-constraint inv pre trans post)
(check-synth)
