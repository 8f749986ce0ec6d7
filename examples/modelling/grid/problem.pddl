(define (problem fill-it)
 (:domain basin)
 (:init (= (level) 0))
 (:goal (full)))
