; Where the pair (row, column) of a board of 8 by 8 lies, and no two pairs in one place. Shows: a constraint on two calls.
(set-logic BV)
(define-sort Byte () (_ BitVec 8))
(synth-fun place ((r Byte) (c Byte)) Byte
  ((S Byte))
  ((S Byte (r c #x03 (bvadd S S) (bvor S S) (bvshl S S)))))
(declare-var r Byte)
(declare-var c Byte)
(declare-var s Byte)
(declare-var d Byte)
(assume (and (bvult r #x08) (bvult c #x08) (bvult s #x08) (bvult d #x08)))
(constraint (bvult (place r c) #x40))
(constraint (=> (= (place r c) (place s d)) (and (= r s) (= c d))))
(check-synth)
