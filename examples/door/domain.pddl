; A door that is closed and locked: it has to be unlocked before it can be opened.
(define (domain door)
  (:requirements :strips :negative-preconditions)
  (:predicates (closed) (locked))
  (:action unlock
    :parameters ()
    :precondition (locked)
    :effect (not (locked)))
  (:action open-door
    :precondition (and (closed) (not (locked)))
    :effect (not (closed))))
