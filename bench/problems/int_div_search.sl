; A binary search: the new place is inside what is left, which becomes half or less.
(set-logic LIA)
(synth-fun f ((lo Int) (hi Int)) Int
  ((S Int) (D Int) (K Int))
  ((S Int (lo (+ lo D)))
   (D Int (1 (- hi lo) (- D D) (div D K)))
   (K Int (2 3 4))))
(declare-var lo Int)
(declare-var hi Int)
(assume (< lo hi))
(constraint (and (<= lo (f lo hi)) (< (f lo hi) hi)))
(constraint (<= (- (f lo hi) lo) (div (- hi lo) 2)))
(constraint (<= (- hi (+ (f lo hi) 1)) (div (- hi lo) 2)))
(check-synth)
