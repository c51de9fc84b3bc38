(module
  (func $f)
  (import "env" "g" (func $g))
  (func $f))
