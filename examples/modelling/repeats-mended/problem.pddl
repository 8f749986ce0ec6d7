(define (problem rain)
 (:domain cellar)
 (:init (= (water) 0))
 (:goal (alarm)))
