(define (problem evening)
 (:domain fuse)
 (:init (whole) (= (heat) 0))
 (:goal (and (whole) (>= (heat) 100))))
