; A boiler is switched by a thermostat: on at the low mark, and off at the high one.
(define (domain thermostat)
 (:requirements :typing :negative-preconditions :fluents :time)
 (:types room)
 (:predicates (heating ?r - room) (window-open ?r - room))
 (:functions (temperature ?r - room) (low ?r - room) (high ?r - room) (power ?r - room) (loss ?r - room) (gas))
 (:action open-window
  :parameters (?r - room)
  :precondition (not (window-open ?r))
  :effect (window-open ?r))
 (:action close-window
  :parameters (?r - room)
  :precondition (window-open ?r)
  :effect (not (window-open ?r)))
 ; both marks go to the temperature between them
 (:action narrow
  :parameters (?r - room)
  :precondition (< (low ?r) (high ?r))
  :effect (and (increase (low ?r) (/ (- (high ?r) (low ?r)) 2)) (decrease (high ?r) (/ (- (high ?r) (low ?r)) 2))))
 (:process heat
  :parameters (?r - room)
  :precondition (heating ?r)
  :effect (and (increase (temperature ?r) (* #t (power ?r))) (increase (gas) #t)))
 (:process cool
  :parameters (?r - room)
  :precondition (and)
  :effect (decrease (temperature ?r) (* #t (loss ?r))))
 (:process air
  :parameters (?r - room)
  :precondition (window-open ?r)
  :effect (decrease (temperature ?r) #t))
 (:event switch-on
  :parameters (?r - room)
  :precondition (and (not (heating ?r)) (<= (temperature ?r) (low ?r)))
  :effect (heating ?r))
 (:event switch-off
  :parameters (?r - room)
  :precondition (and (heating ?r) (>= (temperature ?r) (high ?r)))
  :effect (not (heating ?r))))
