; Guards walk through the rooms of a museum at night. No two of them stand in one room, and under alarm only lit rooms
; are entered.
(define (domain museum)
 (:requirements :typing :adl)
 (:types guard room)
 (:predicates (in ?g - guard ?r - room) (door ?a ?b - room) (lit ?r - room) (checked ?r - room) (alarm))
 (:action walk
  :parameters (?g - guard ?from ?to - room)
  :precondition (and (in ?g ?from) (or (door ?from ?to) (door ?to ?from))
   (not (exists (?other - guard) (in ?other ?to))) (imply (alarm) (lit ?to)))
  :effect (and (not (in ?g ?from)) (in ?g ?to) (checked ?to)))
 (:action switch
  :parameters (?g - guard ?r - room)
  :precondition (and (in ?g ?r) (not (lit ?r)))
  :effect (forall (?n - room) (when (or (= ?n ?r) (door ?r ?n)) (lit ?n)))))
