; A lock: the count is 1 where the flag is set and 0 where it isn't. Shows: a truth value in a state.
(set-logic BV)
(define-sort Byte () (_ BitVec 8))
(synth-inv inv ((held Bool) (count Byte))
  ((B Bool) (S Byte))
  ((B Bool (held (= S S)))
   (S Byte (count #x00 #x01 (ite B S S)))))
(define-fun pre ((held Bool) (count Byte)) Bool (and (not held) (= count #x00)))
(define-fun trans ((held Bool) (count Byte) (held1 Bool) (count1 Byte)) Bool
  (or (and (not held) held1 (= count1 (bvadd count #x01))) (and held (not held1) (= count1 (bvsub count #x01)))))
(define-fun post ((held Bool) (count Byte)) Bool (bvule count #x01))
(inv-constraint inv pre trans post)
(check-synth)
