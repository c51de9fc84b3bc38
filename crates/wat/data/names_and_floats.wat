(module
  (func
    f32.const 0x1.8p+3
    drop
    call $nowhere))
