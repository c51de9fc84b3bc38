(module
  (fucn (export "f")))
