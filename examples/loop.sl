; An invariant of the loop `x = 0; y = 100; while (x < y) x = x + 1, y = y - 1` with `x = y` behind it.
(set-logic BV)
(synth-inv inv ((x (_ BitVec 8)) (y (_ BitVec 8)))
  ((B Bool) (S (_ BitVec 8)))
  ((B Bool ((= S S) (bvule S S) (and B B)))
   (S (_ BitVec 8) (x y #x32 #x64 (bvadd S S)))))
(define-fun pre ((x (_ BitVec 8)) (y (_ BitVec 8))) Bool (and (= x #x00) (= y #x64)))
(define-fun trans ((x (_ BitVec 8)) (y (_ BitVec 8)) (u (_ BitVec 8)) (v (_ BitVec 8))) Bool
  (and (bvult x y) (= u (bvadd x #x01)) (= v (bvsub y #x01))))
(define-fun post ((x (_ BitVec 8)) (y (_ BitVec 8))) Bool (=> (not (bvult x y)) (= x y)))
(inv-constraint inv pre trans post)
(check-synth)
