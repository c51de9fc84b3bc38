(module
  (tag $e)
  (func
    block
    catch $e
    end)
  (func
    catch_all))
