(define (problem six)
 (:domain clocks)
 (:init (= (hours) 0) (= (price) 0) (= (way) 0))
 (:goal (and (= (hours) 6) (= (price) 18) (= (way) 5))))
