; The middle of an interval: as far from one end as from the other, or one nearer to the lower end.
(set-logic LIA)
(synth-fun f ((lo Int) (hi Int)) Int
  ((S Int) (K Int))
  ((S Int (lo hi 1 (+ S S) (- S S) (div S K)))
   (K Int (2))))
(declare-var lo Int)
(declare-var hi Int)
(assume (<= lo hi))
(constraint (<= (- (f lo hi) lo) (- hi (f lo hi))))
(constraint (<= (- hi (f lo hi)) (+ (- (f lo hi) lo) 1)))
(check-synth)
