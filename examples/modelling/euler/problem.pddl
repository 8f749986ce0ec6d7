(define (problem drinkable)
 (:domain cup)
 (:init (= (temperature) 84) (= (room) 20))
 (:goal (<= (temperature) 41)))
