(set-logic LIA)
(define-const c Int 5)
