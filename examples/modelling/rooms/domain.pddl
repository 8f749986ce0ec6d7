; Rooms are heated by thermostats with two marks each. A room that is heated warms the rooms beside it, so the temperature
; of a room changes its course while it is on the way to a mark.
(define (domain rooms)
 (:types room)
 (:predicates (heating ?r - room) (beside ?r ?s - room))
 (:functions (temperature ?r - room) (low ?r - room) (high ?r - room) (power ?r - room) (loss ?r - room) (leak))
 (:process heat
  :parameters (?r - room)
  :precondition (heating ?r)
  :effect (increase (temperature ?r) (* #t (power ?r))))
 (:process warm
  :parameters (?r ?s - room)
  :precondition (and (heating ?r) (beside ?r ?s))
  :effect (increase (temperature ?s) (* #t (leak))))
 (:process cool
  :parameters (?r - room)
  :effect (decrease (temperature ?r) (* #t (loss ?r))))
 (:event on
  :parameters (?r - room)
  :precondition (and (not (heating ?r)) (<= (temperature ?r) (low ?r)))
  :effect (heating ?r))
 (:event off
  :parameters (?r - room)
  :precondition (and (heating ?r) (>= (temperature ?r) (high ?r)))
  :effect (not (heating ?r))))
