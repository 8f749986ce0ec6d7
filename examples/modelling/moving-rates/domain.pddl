; A tank drains the faster the fuller it is: the rate reads the level, and the level moves at that rate.
(define (domain tank)
 (:predicates (open))
 (:functions (level) (drain))
 (:action open-valve
  :parameters ()
  :precondition (not (open))
  :effect (open))
 (:process flow
  :parameters ()
  :precondition (open)
  :effect (decrease (level) (* #t (/ (level) 4)))))
