(module
  // the entry
  (func (export "main")))
