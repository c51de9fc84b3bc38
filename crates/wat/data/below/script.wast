(module nop)
(assert_return (invoke "f"))
