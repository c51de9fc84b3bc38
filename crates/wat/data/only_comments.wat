;; to be written
(; later ;)
