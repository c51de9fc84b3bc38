(module
  (func (param i32)
    local.get 0
    if
    else $then
    end))
