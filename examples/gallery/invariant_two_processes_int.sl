; Two processes and a lock: each takes it before it enters, and gives it back when it leaves. They are never both in. Shows: a lock as a sum, without a grammar.
(set-logic LIA)
(synth-inv inv ((p Int) (q Int) (lock Int)))
(define-fun pre ((p Int) (q Int) (lock Int)) Bool (and (= p 0) (= q 0) (= lock 0)))
(define-fun trans ((p Int) (q Int) (lock Int) (p1 Int) (q1 Int) (lock1 Int)) Bool
  (or (and (= p 0) (= lock 0) (= p1 1) (= lock1 1) (= q1 q)) (and (= p 1) (= p1 0) (= lock1 0) (= q1 q))
      (and (= q 0) (= lock 0) (= q1 1) (= lock1 1) (= p1 p)) (and (= q 1) (= q1 0) (= lock1 0) (= p1 p))))
(define-fun post ((p Int) (q Int) (lock Int)) Bool (not (and (= p 1) (= q 1))))
(inv-constraint inv pre trans post)
(check-synth)
