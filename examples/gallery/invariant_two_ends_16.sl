; x counts up and y down from n; when x is n, y is 0. Shows: what stays the same is a sum.
(set-logic BV)
(define-sort Word () (_ BitVec 16))
(synth-inv inv ((x Word) (y Word) (n Word))
  ((B Bool) (S Word))
  ((B Bool ((= S S) (bvule S S) (and B B)))
   (S Word (x y n #x0000 (bvadd S S)))))
(define-fun pre ((x Word) (y Word) (n Word)) Bool (and (= x #x0000) (= y n)))
(define-fun trans ((x Word) (y Word) (n Word) (u Word) (v Word) (m Word)) Bool
  (and (distinct x n) (= u (bvadd x #x0001)) (= v (bvsub y #x0001)) (= m n)))
(define-fun post ((x Word) (y Word) (n Word)) Bool (=> (= x n) (= y #x0000)))
(inv-constraint inv pre trans post)
(check-synth)
