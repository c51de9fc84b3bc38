(module
  (func (drop (i32.const 4294967296))))
