(module
  (func (result f64)
    f64.const 3.14))
