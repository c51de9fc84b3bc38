(module
  (func
    block
    else
    end)
  (func
    else))
