; Levels open and close: what was asserted within is gone behind `pop`.
; => unsat
; => sat
(set-logic QF_LIA)
(push 1)
(assert false)
(check-sat-using (then simplify sat))
(pop 1)
(check-sat-using (then simplify sat))
