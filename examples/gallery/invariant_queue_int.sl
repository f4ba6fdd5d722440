; A producer and a consumer share a queue with room for some: what was made and not used is never below 0, nor more than the room. Shows: an equality that the file doesn't say, without a grammar.
(set-logic LIA)
(synth-inv inv ((made Int) (used Int) (stored Int) (room Int)))
(define-fun pre ((made Int) (used Int) (stored Int) (room Int)) Bool (and (= made 0) (= used 0) (= stored 0) (>= room 0)))
(define-fun trans ((made Int) (used Int) (stored Int) (room Int) (made1 Int) (used1 Int) (stored1 Int) (room1 Int)) Bool
  (and (= room1 room)
    (or (and (< stored room) (= made1 (+ made 1)) (= stored1 (+ stored 1)) (= used1 used))
        (and (> stored 0) (= used1 (+ used 1)) (= stored1 (- stored 1)) (= made1 made)))))
(define-fun post ((made Int) (used Int) (stored Int) (room Int)) Bool (and (>= made used) (<= made (+ used room))))
(inv-constraint inv pre trans post)
(check-synth)
