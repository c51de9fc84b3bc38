(module
  (data "first
second"))
