(module
  (func (export 'f')))
