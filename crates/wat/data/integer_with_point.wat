(module
  (global $half i32 (i32.const 1.5)))
