(module
  (func
    block $outer
      loop $again
        br $agian
      end
    end
    br $outer))
