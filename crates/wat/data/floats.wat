(module ;; float literals as they are written
  (global $pi f64 (f64.const 3.14159_26535))
  (global f32 (f32.const (@why "half") -0x1.8p-1))
  (func (result v128) v128.const f32x4 1 +2.5 -inf nan:0x200000)
  (func (result v128) v128.const f64x2 1e10 0x1p+3)
  (memory (data (f32 0.5 1 nan) "a" (f64 -0 1_000.25)))
  (func (drop (f32.const 7)) (drop (f64.const inf))))
