; Assertions added between checks: what was satisfiable is so no more at the end.
; => sat
; => sat
; => unsat
(set-logic QF_LIA)
(declare-const rain Bool)
(declare-const wet Bool)
(declare-const umbrella Bool)
(assert (or (not rain) umbrella wet))
(check-sat-using sat)
(assert rain)
(assert (not umbrella))
(check-sat-using sat)
(assert (not wet))
(check-sat-using sat)
