(define (problem lamp)
 (:domain fuse)
 (:init (whole) (= (heat) 0))
 (:goal (and (lit) (>= (heat) 5))))
