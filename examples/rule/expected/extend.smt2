(set-logic QF_BV)
(declare-const |idx| (_ BitVec 16))
(assert (distinct (bvlshr (bvshl ((_ zero_extend 16) |idx|) #b00000000000000000000000000010000) #b00000000000000000000000000010000) ((_ zero_extend 16) |idx|)))
(check-sat)
