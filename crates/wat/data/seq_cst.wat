(module
  (memory 1 1 shared)
  (func (result i32)
    (i32.atomic.load seq_cst (i32.const 0))))
