; Strategies are written in the check: what fails is told by its cause, and `or-else` tries the next.
; => unknown
; => (:reason-unknown (failed told))
; => unknown
; => (:reason-unknown (failed (not-clausal 1)))
; => sat
; => unknown
; => (:reason-unknown incomplete)
(set-logic QF_LIA)
(declare-const p Bool)
(declare-const x Int)
(push 1)
(assert (=> p (<= x 2)))
(check-sat-using fail)
(get-info :reason-unknown)
(check-sat-using (then simplify sat))
(get-info :reason-unknown)
(pop 1)
(assert p)
(check-sat-using (or-else fail (then skip sat)))
(check-sat-using skip)
(get-info :reason-unknown)
