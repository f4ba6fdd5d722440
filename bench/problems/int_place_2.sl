; The place of a number among two that are in order.
; leaves: 3
(set-logic LIA)
(synth-fun f ((y1 Int) (y2 Int) (k Int)) Int)
(declare-var y1 Int)
(declare-var y2 Int)
(declare-var k Int)
(assume (< y1 y2))
(constraint (=> (< k y1) (= (f y1 y2 k) 0)))
(constraint (=> (and (> k y1) (< k y2)) (= (f y1 y2 k) 1)))
(constraint (=> (> k y2) (= (f y1 y2 k) 2)))
(check-synth)
