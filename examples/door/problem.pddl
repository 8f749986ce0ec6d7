(define (problem open-the-door)
  (:domain door)
  (:init (closed) (locked))
  (:goal (not (closed))))
