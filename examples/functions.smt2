; A function with parameters stands for its body over the arguments. A parameter may shadow a name.
; => (goals
; => (goal precise
; =>   (<= (- y) (- 1))
; =>   (<= (+ (- x) y) (- 2))
; => )
; => )
(set-logic QF_LIA)
(declare-const x Int)
(declare-const y Int)
(define-fun at-least ((x Int) (low Int)) Bool (<= low x))
(assert (at-least y 1))
(assert (at-least x (+ y 2)))
(apply simplify)
