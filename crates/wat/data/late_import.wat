(module
  (memory 1)
  (func (import "env" "f"))
  (import "env" "g" (global i32)))
