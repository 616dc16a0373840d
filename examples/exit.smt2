; What follows `exit` isn't looked at.
; => sat
(set-logic QF_LIA)
(declare-const p Bool)
(assert (or p))
(check-sat-using sat)
(exit)
this is ) no script
