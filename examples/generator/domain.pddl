; A generator burns fuel while it runs, and can be refuelled from cans meanwhile. A can that is poured into a full tank
; spills.
(define (domain generator)
 (:requirements :typing :negative-preconditions :fluents :time)
 (:types generator can)
 (:predicates (running ?g - generator) (draining ?g - generator) (spilt ?g - generator)
  (full ?c - can) (pouring ?c - can ?g - generator))
 (:functions (fuel ?g - generator) (capacity ?g - generator) (consumption ?g - generator) (energy ?g - generator)
  (content ?c - can) (flow ?c - can))
 (:action start
  :parameters (?g - generator)
  :precondition (and (not (running ?g)) (> (fuel ?g) 0))
  :effect (running ?g))
 (:action refuel
  :parameters (?c - can ?g - generator)
  :precondition (full ?c)
  :effect (and (pouring ?c ?g) (not (full ?c))))
 (:action open-drain
  :parameters (?g - generator)
  :precondition (not (draining ?g))
  :effect (draining ?g))
 (:process generate
  :parameters (?g - generator)
  :precondition (running ?g)
  :effect (and (decrease (fuel ?g) (* #t (consumption ?g))) (increase (energy ?g) #t)))
 (:process pour
  :parameters (?c - can ?g - generator)
  :precondition (pouring ?c ?g)
  :effect (and (increase (fuel ?g) (* #t (flow ?c))) (decrease (content ?c) (* #t (flow ?c)))))
 ; the fuller the tank, the faster it drains: this rate reads a number that it moves, so no plan may let it run
 (:process drain
  :parameters (?g - generator)
  :precondition (draining ?g)
  :effect (decrease (fuel ?g) (* #t (/ (fuel ?g) 8))))
 (:event run-dry
  :parameters (?g - generator)
  :precondition (and (running ?g) (<= (fuel ?g) 0))
  :effect (not (running ?g)))
 (:event empty
  :parameters (?c - can ?g - generator)
  :precondition (and (pouring ?c ?g) (<= (content ?c) 0))
  :effect (not (pouring ?c ?g)))
 (:event spill
  :parameters (?c - can ?g - generator)
  :precondition (and (pouring ?c ?g) (>= (fuel ?g) (capacity ?g)))
  :effect (and (spilt ?g) (not (pouring ?c ?g)))))
