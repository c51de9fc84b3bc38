(module
  (memory 1)
  (data (i32.const 0) "C:\windows"))
