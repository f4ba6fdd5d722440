; A code and its reverse: they differ from the byte, and undo each other. Shows: two functions under constraints on both.
(set-logic BV)
(define-sort Byte () (_ BitVec 8))
(synth-fun encode ((x Byte)) Byte
  ((S Byte))
  ((S Byte (x #x2a (bvadd S S) (bvxor S S)))))
(synth-fun decode ((x Byte)) Byte
  ((S Byte))
  ((S Byte (x #x2a (bvsub S S) (bvand S S)))))
(declare-var x Byte)
(constraint (= (decode (encode x)) x))
(constraint (distinct (encode x) x))
(check-synth)
