(module
  (func $log)
  (func $loop_once)
  (func
    call $lug
    call $print))
