(define (problem tea)
 (:domain kettle)
 (:init (= (temperature) 15))
 (:goal (and (>= (temperature) 100) (not (on)))))
