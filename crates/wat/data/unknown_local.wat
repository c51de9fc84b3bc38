(module
  (func $first (param $count i32))
  (func (param $"the count" i32)
    local.get $count
    local.get $"the coun"
    drop
    drop))
