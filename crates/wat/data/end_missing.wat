(module
  (func (param i32)
    block $out
      local.get 0
      br_if $out))
