; Signed bytes as small numbers: 0, -1, 1, -2, .. become 0, 1, 2, 3, .., and back. Shows: a known half and a half to be found.
(set-logic BV)
(define-sort Byte () (_ BitVec 8))
(define-fun zigzag ((x Byte)) Byte (bvxor (bvshl x #x01) (bvashr x #x07)))
(synth-fun back ((x Byte)) Byte
  ((S Byte))
  ((S Byte (x #x01 (bvand S S) (bvxor S S) (bvneg S) (bvlshr S #x01)))))
(declare-var x Byte)
(constraint (= (back (zigzag x)) x))
(check-synth)
