; A kettle heats its water until it boils, and then switches itself off.
(define (domain kettle)
 (:predicates (on))
 (:functions (temperature))
 (:action switch-on
  :parameters ()
  :precondition (not (on))
  :effect (on))
 (:process heat
  :parameters ()
  :precondition (on)
  :effect (increase (temperature) (* #t 30)))
 (:event boil
  :parameters ()
  :precondition (and (on) (>= (temperature) 100))
  :effect (not (on))))
