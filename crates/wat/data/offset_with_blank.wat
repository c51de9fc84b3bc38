(module
  (memory 1)
  (func (drop (i32.load offset = 4 (i32.const 0)))))
