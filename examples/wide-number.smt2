; Numbers have 128 bits.
; => (error "line 5 column 14: number past 128 bits")
; status 1
(declare-const x Int)
(assert (= x 170141183460469231731687303715884105728))
