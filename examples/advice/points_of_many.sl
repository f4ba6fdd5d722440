; Eight examples, where a function may be asked at four tuples of arguments.
; words: --mode least --points 4
; answer: fail Points
(set-logic BV)
(synth-fun f ((x (_ BitVec 8))) (_ BitVec 8)
  ((S (_ BitVec 8)))
  ((S (_ BitVec 8) (x #x01 #x07 (bvnot S) (bvand S S) (bvadd S S)))))
(constraint (= (f #x52) #x58))
(constraint (= (f #xf2) #xf8))
(constraint (= (f #x26) #x28))
(constraint (= (f #x65) #x68))
(constraint (= (f #xa6) #xa8))
(constraint (= (f #x0c) #x10))
(constraint (= (f #x12) #x18))
(constraint (= (f #xd2) #xd8))
(check-synth)
