; Where the item k behind the head lies in a ring buffer of 10 places. Shows: a remainder by a constant in place of a test.
(set-logic LIA)
(synth-fun place ((head Int) (k Int)) Int
  ((S Int) (N Int))
  ((S Int (head k (+ S S) (- S S) (mod S N)))
   (N Int (10))))
(declare-var head Int)
(declare-var k Int)
(assume (and (<= 0 head) (< head 10) (<= 0 k) (< k 10)))
(constraint (= (place head k) (ite (< (+ head k) 10) (+ head k) (- (+ head k) 10))))
(check-synth)
