; Two names, one of which must be true, and not the first.
; => sat
; => (
; =>   (define-fun p () Bool false)
; =>   (define-fun q () Bool true)
; => )
(set-logic QF_LIA)
(declare-const p Bool)
(declare-const q Bool)
(assert (or p q))
(assert (not p))
(check-sat-using sat)
(get-model)
