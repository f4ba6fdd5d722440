; The lowest bit that is 0, alone, of 64 bits. Shows: an answer by properties, without a reference.
(set-logic BV)
(define-sort Word () (_ BitVec 64))
(synth-fun zero ((x Word)) Word
  ((S Word))
  ((S Word (x #x0000000000000001 (bvnot S) (bvand S S) (bvor S S) (bvadd S S)))))
(declare-var x Word)
(constraint (= (bvand (zero x) x) #x0000000000000000))
(constraint (= (bvand (zero x) (bvsub (zero x) #x0000000000000001)) #x0000000000000000))
(constraint (= (bvand (bvsub (zero x) #x0000000000000001) x) (bvsub (zero x) #x0000000000000001)))
(check-synth)
