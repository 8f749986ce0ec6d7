; An alarm sounds where the water is high. The event holds again as soon as it has fired.
(define (domain cellar)
 (:predicates (alarm))
 (:functions (water))
 (:process rise
  :parameters ()
  :effect (increase (water) (* #t 2)))
 (:event flood
  :parameters ()
  :precondition (>= (water) 5)
  :effect (alarm)))
