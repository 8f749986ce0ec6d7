(define (problem green-tea)
 (:domain kettle)
 (:init (= (temperature) 20))
 (:goal (and (not (spoilt)) (>= (temperature) 80))))
