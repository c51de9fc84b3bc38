(module
  (import "env" "log (func $log (param i32)))
  (func))
