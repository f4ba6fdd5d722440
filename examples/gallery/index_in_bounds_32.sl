; An index that is always inside an array of n, and the wanted one where that is inside. Shows: an assumption.
(set-logic BV)
(define-sort Word () (_ BitVec 32))
(synth-fun safe ((i Word) (n Word)) Word
  ((S Word) (C Bool))
  ((S Word (i n #x00000001 (bvsub S S) (ite C S S)))
   (C Bool ((bvult S S)))))
(declare-var i Word)
(declare-var n Word)
(assume (distinct n #x00000000))
(constraint (bvult (safe i n) n))
(constraint (=> (bvult i n) (= (safe i n) i)))
(check-synth)
