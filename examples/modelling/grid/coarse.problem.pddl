(define (problem bottle-it)
 (:domain basin)
 (:init (= (level) 0))
 (:goal (bottled)))
