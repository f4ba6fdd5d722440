; Red of a pixel of 16 bits (5 bits of red, 6 of green, 5 of blue), as a byte. By four pixels. Shows: widths that differ.
(set-logic BV)
(define-sort Byte () (_ BitVec 8))
(define-sort Pixel () (_ BitVec 16))
(synth-fun red ((p Pixel)) Byte
  ((S Byte) (P Pixel))
  ((S Byte (((_ extract 15 8) P) ((_ extract 7 0) P) #x03 #x07 #xf8 (bvand S S) (bvor S S) (bvlshr S S) (bvshl S S)))
   (P Pixel (p))))
(constraint (= (red #xf800) #xf8))
(constraint (= (red #x0000) #x00))
(constraint (= (red #x8410) #x80))
(constraint (= (red #x07ff) #x00))
(check-synth)
