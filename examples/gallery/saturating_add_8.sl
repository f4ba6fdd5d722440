; A sum that stays at the greatest byte in place of wrapping. Shows: `ite` in a grammar, and a wider reference.
(set-logic BV)
(define-sort Byte () (_ BitVec 8))
(synth-fun add ((x Byte) (y Byte)) Byte
  ((S Byte) (T Byte) (C Bool))
  ((S Byte ((ite C T T)))
   (T Byte (x y #xff (bvadd x y)))
   (C Bool ((bvult T T)))))
(define-fun wide ((x Byte)) (_ BitVec 9) ((_ zero_extend 1) x))
(declare-var x Byte)
(declare-var y Byte)
(constraint (= (wide (add x y)) (ite (bvult (bvadd (wide x) (wide y)) #b011111111) (bvadd (wide x) (wide y)) #b011111111)))
(check-synth)
