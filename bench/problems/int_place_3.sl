; The place of a number among three that are in order.
; leaves: 4
(set-logic LIA)
(synth-fun f ((y1 Int) (y2 Int) (y3 Int) (k Int)) Int)
(declare-var y1 Int)
(declare-var y2 Int)
(declare-var y3 Int)
(declare-var k Int)
(assume (and (< y1 y2) (< y2 y3)))
(constraint (=> (< k y1) (= (f y1 y2 y3 k) 0)))
(constraint (=> (and (> k y1) (< k y2)) (= (f y1 y2 y3 k) 1)))
(constraint (=> (and (> k y2) (< k y3)) (= (f y1 y2 y3 k) 2)))
(constraint (=> (> k y3) (= (f y1 y2 y3 k) 3)))
(check-synth)
