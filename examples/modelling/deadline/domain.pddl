; Bread is done when it was in the oven for five units of time, and spoilt after seven. A clock that always runs says when.
(define (domain bakery)
 (:predicates (in-oven) (served))
 (:functions (clock) (baked))
 (:action put-in
  :parameters ()
  :precondition (and (not (in-oven)) (not (served)))
  :effect (in-oven))
 (:action take-out
  :parameters ()
  :precondition (and (in-oven) (>= (baked) 5) (<= (baked) 7))
  :effect (and (not (in-oven)) (served)))
 (:process tick
  :parameters ()
  :effect (increase (clock) #t))
 (:process bake
  :parameters ()
  :precondition (in-oven)
  :effect (increase (baked) #t)))
