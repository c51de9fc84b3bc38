(module
  (func (export "f") (result i32)
    i32.cnst 1)
  (memory 1)
  (glob $g i32 (i32.const 0))
  (func (param f32) (drop (f32.const 0.5)) (drop (i32.const 0.5)))
  (export "g" (func 0))
  stray)
