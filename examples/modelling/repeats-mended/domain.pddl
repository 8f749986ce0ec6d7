; An alarm sounds where the water is high. The event undoes its own condition: where the alarm sounds it holds no more.
(define (domain cellar)
 (:predicates (alarm))
 (:functions (water))
 (:process rise
  :parameters ()
  :effect (increase (water) (* #t 2)))
 (:event flood
  :parameters ()
  :precondition (and (not (alarm)) (>= (water) 5))
  :effect (alarm)))
