; A price list: 12 for each piece and 30 for the parcel, by three rows of a spreadsheet. Shows: a line through points.
(set-logic BV)
(define-sort Word () (_ BitVec 16))
(synth-fun price ((pieces Word)) Word
  ((S Word))
  ((S Word (pieces #x000c #x001e (bvadd S S) (bvmul S S)))))
(constraint (= (price #x0001) #x002a))
(constraint (= (price #x0002) #x0036))
(constraint (= (price #x000a) #x0096))
(check-synth)
