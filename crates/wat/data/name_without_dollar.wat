(module
  (func add (param i32)))
