(module
  (func
    nop;
    nop))
