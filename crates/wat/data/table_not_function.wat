(module
  (table $handlers 1 funcref)
  (func
    call $handlers))
