(module
  (func
    block
      block $a
      end $b
    end))
