; A road crosses a railway. Trains come by their timetable, and the gate is to be down while one is inside.
(define (domain crossing)
 (:requirements :typing :negative-preconditions :fluents :time :timed-initial-literals)
 (:types train)
 (:predicates (inside ?t - train) (hit ?t - train) (lowering) (raising))
 (:functions (angle) (speed) (waited))
 (:action lower
  :parameters ()
  :precondition (and (not (lowering)) (> (angle) 0))
  :effect (and (lowering) (not (raising))))
 (:action raise
  :parameters ()
  :precondition (and (not (raising)) (< (angle) 90))
  :effect (and (raising) (not (lowering))))
 (:process go-down
  :parameters ()
  :precondition (lowering)
  :effect (decrease (angle) (* #t (speed))))
 (:process go-up
  :parameters ()
  :precondition (raising)
  :effect (increase (angle) (* #t (speed))))
 (:process wait
  :parameters ()
  :precondition (< (angle) 90)
  :effect (increase (waited) #t))
 (:event closed
  :parameters ()
  :precondition (and (lowering) (<= (angle) 0))
  :effect (not (lowering)))
 (:event opened
  :parameters ()
  :precondition (and (raising) (>= (angle) 90))
  :effect (not (raising)))
 (:event accident
  :parameters (?t - train)
  :precondition (and (inside ?t) (> (angle) 0) (not (hit ?t)))
  :effect (hit ?t)))
