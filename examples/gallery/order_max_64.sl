; The greater of two words of 64 bits. Shows: the properties that every textbook has.
(set-logic BV)
(define-sort Word () (_ BitVec 64))
(synth-fun max ((x Word) (y Word)) Word
  ((S Word) (C Bool))
  ((S Word (x y (ite C S S)))
   (C Bool ((bvult S S)))))
(declare-var x Word)
(declare-var y Word)
(constraint (bvuge (max x y) x))
(constraint (bvuge (max x y) y))
(constraint (or (= (max x y) x) (= (max x y) y)))
(check-synth)
