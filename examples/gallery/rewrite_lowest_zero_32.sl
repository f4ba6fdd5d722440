; The lowest bit that is 0, alone, of 32 bits. Shows: an answer by properties, without a reference.
(set-logic BV)
(define-sort Word () (_ BitVec 32))
(synth-fun zero ((x Word)) Word
  ((S Word))
  ((S Word (x #x00000001 (bvnot S) (bvand S S) (bvor S S) (bvadd S S)))))
(declare-var x Word)
(constraint (= (bvand (zero x) x) #x00000000))
(constraint (= (bvand (zero x) (bvsub (zero x) #x00000001)) #x00000000))
(constraint (= (bvand (bvsub (zero x) #x00000001) x) (bvsub (zero x) #x00000001)))
(check-synth)
