; A kettle must not get hotter than 80. What breaks the rule is an event at the mark itself, so that it has a first moment.
(define (domain kettle)
 (:predicates (on) (spoilt))
 (:functions (temperature))
 (:action switch-on
  :parameters ()
  :precondition (not (on))
  :effect (on))
 (:action switch-off
  :parameters ()
  :precondition (on)
  :effect (not (on)))
 (:process heat
  :parameters ()
  :precondition (on)
  :effect (increase (temperature) (* #t 30)))
 (:event too-hot
  :parameters ()
  :precondition (and (not (spoilt)) (>= (temperature) 81))
  :effect (spoilt)))
