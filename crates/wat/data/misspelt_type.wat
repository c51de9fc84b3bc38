(module
  (func (param int) (result i32)
    local.get 0))
