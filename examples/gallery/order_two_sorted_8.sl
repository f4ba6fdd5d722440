; Two bytes in order: the lesser and the greater one, with the same sum. Shows: two functions, of which one constraint speaks of both.
(set-logic BV)
(define-sort Byte () (_ BitVec 8))
(synth-fun first ((x Byte) (y Byte)) Byte
  ((S Byte) (C Bool))
  ((S Byte (x y (ite C S S)))
   (C Bool ((bvule S S)))))
(synth-fun second ((x Byte) (y Byte)) Byte
  ((S Byte) (C Bool))
  ((S Byte (x y (ite C S S)))
   (C Bool ((bvule S S)))))
(declare-var x Byte)
(declare-var y Byte)
(constraint (bvule (first x y) x))
(constraint (bvule (first x y) y))
(constraint (or (= (first x y) x) (= (first x y) y)))
(constraint (= (bvadd (first x y) (second x y)) (bvadd x y)))
(check-synth)
