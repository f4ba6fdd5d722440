; The mean of two bytes, rounded down, without a ninth bit: for every x and y.
(set-logic BV)
(define-sort Byte () (_ BitVec 8))
(define-fun wide ((x Byte)) (_ BitVec 9) ((_ zero_extend 1) x))
(synth-fun mean ((x Byte) (y Byte)) Byte
  ((S Byte))
  ((S Byte (x y (bvand S S) (bvxor S S) (bvadd S S) (bvlshr S #x01)))))
(declare-var x Byte)
(declare-var y Byte)
(constraint (= (wide (mean x y)) (bvlshr (bvadd (wide x) (wide y)) #b000000001)))
(check-synth)
