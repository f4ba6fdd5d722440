; Two places of a ring of eight.
(set-logic LIA)
(synth-inv inv ((head Int) (tail Int)))
(define-fun pre ((head Int) (tail Int)) Bool (and (= head 0) (= tail 0)))
(define-fun trans ((head Int) (tail Int) (head1 Int) (tail1 Int)) Bool (or (and (= tail1 tail) (= head1 (ite (= head 7) 0 (+ head 1)))) (and (= head1 head) (= tail1 (ite (= tail 7) 0 (+ tail 1))))))
(define-fun post ((head Int) (tail Int)) Bool (and (and (<= 0 head) (<= head 7)) (and (<= 0 tail) (<= tail 7))))
(inv-constraint inv pre trans post)
(check-synth)
