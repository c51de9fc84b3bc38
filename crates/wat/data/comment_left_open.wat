(module
  (; what follows is out of use
  (func)
)
