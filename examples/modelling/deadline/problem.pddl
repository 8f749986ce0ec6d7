(define (problem breakfast)
 (:domain bakery)
 (:init (= (clock) 0) (= (baked) 0))
 (:goal (and (served) (<= (clock) 8))))
