; A checksum of two bytes, by four messages: all bits of the sum turned. Shows: two arguments.
(set-logic BV)
(define-sort Byte () (_ BitVec 8))
(synth-fun check ((a Byte) (b Byte)) Byte
  ((S Byte))
  ((S Byte (a b #x01 (bvadd S S) (bvxor S S) (bvnot S)))))
(constraint (= (check #x10 #x20) #xcf))
(constraint (= (check #x01 #x01) #xfd))
(constraint (= (check #xff #x01) #xff))
(constraint (= (check #x7f #x80) #x00))
(check-synth)
