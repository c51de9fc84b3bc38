(module
  (func
    call $f0
    call $f1
    call $f2
    call $f3
    call $f4
    call $f5
    call $f6
    call $f7
    call $f8
    call $f9
    call $f10
    call $f11
    call $f12
    call $f13
    call $f14
    call $f15
    call $f16
    call $f17
    call $f18
    call $f19
    call $f20
    call $f21
    call $f22
  ))
