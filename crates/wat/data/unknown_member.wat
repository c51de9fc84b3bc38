(module
  (type $point (struct (field $x f64) (field $y f64)))
  (func (param (ref $point))
    local.get 0
    struct.get $point $z
    drop))
