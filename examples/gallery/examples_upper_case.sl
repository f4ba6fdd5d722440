; Capital letters of small ones, by four examples. Shows: closed examples alone; the mask comes from the grammar.
(set-logic BV)
(define-sort Byte () (_ BitVec 8))
(synth-fun upper ((c Byte)) Byte
  ((S Byte))
  ((S Byte (c #x20 #xdf (bvand S S) (bvor S S) (bvxor S S)))))
(constraint (= (upper #x61) #x41))
(constraint (= (upper #x7a) #x5a))
(constraint (= (upper #x41) #x41))
(constraint (= (upper #x5a) #x5a))
(check-synth)
