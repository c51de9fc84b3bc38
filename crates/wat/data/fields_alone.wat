;; no module round it
(func (export "f"))
(memory 1)
