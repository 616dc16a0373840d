; Each command without other output answers `success` where that is asked for; unknown options are told so.
; => success
; => unsupported
; => success
; => sat
; => "done"
; => success
(set-option :print-success true)
(set-option :foo 1)
(set-logic QF_LIA)
(check-sat-using skip)
(echo "done")
(exit)
