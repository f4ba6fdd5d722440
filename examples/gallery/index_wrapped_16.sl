; The place behind i in a ring of 16. Shows: one mask in place of a test.
(set-logic BV)
(define-sort Word () (_ BitVec 16))
(synth-fun next ((i Word)) Word
  ((S Word))
  ((S Word (i #x0001 #x000f (bvadd S S) (bvand S S)))))
(declare-var i Word)
(assume (bvult i #x0010))
(constraint (= (next i) (ite (= i #x000f) #x0000 (bvadd i #x0001))))
(check-synth)
