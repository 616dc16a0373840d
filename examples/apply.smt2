; `apply` shows the goals of a strategy: the canonical form of an inequality, and an equation that no integer solves.
; => (goals
; => (goal precise
; =>   (<= x 2)
; => )
; => )
; => (goals
; => (goal precise
; =>   false
; => )
; => )
; => (failed told)
(set-logic QF_LIA)
(declare-const x Int)
(push 1)
(assert (< (* 2 x) 5))
(apply simplify)
(pop 1)
(assert (= (* 3 x) 4))
(apply simplify)
(apply (then simplify fail))
