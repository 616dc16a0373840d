; The first error ends the script, behind the answers before it.
; => sat
; => (error "line 8 column 1: unclosed parenthesis")
; status 1
(set-logic QF_LIA)
(declare-const x Int)
(check-sat-using skip)
(assert (<= x
