(set-logic QF_BV)
(declare-const |x| (_ BitVec 4294967295))
(check-sat)
