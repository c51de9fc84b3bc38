(module
  (func (param i32)
    (block $out
      (br_if $out (local.get 0))
    end)
    end))
