; The header's length in bytes from the first byte of an IPv4 packet: four times its low half. By four packets.
; Shows: two steps of bits, mask and shift.
(set-logic BV)
(define-sort Byte () (_ BitVec 8))
(synth-fun bytes ((b Byte)) Byte
  ((S Byte))
  ((S Byte (b #x02 #x0f (bvand S S) (bvshl S S) (bvlshr S S)))))
(constraint (= (bytes #x45) #x14))
(constraint (= (bytes #x46) #x18))
(constraint (= (bytes #x4f) #x3c))
(constraint (= (bytes #x65) #x14))
(check-synth)
