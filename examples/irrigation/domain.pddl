; A pump waters all fields whose valve is open, from one tank. A field that is wet enough gets no more.
(define (domain irrigation)
 (:requirements :typing :conditional-effects :existential-preconditions :fluents)
 (:types field)
 (:predicates (dry ?f - field) (valve-open ?f - field))
 (:functions (moisture ?f - field) (need ?f - field) (tank) (flow))
 (:action open-valves
  :parameters ()
  :precondition (exists (?f - field) (dry ?f))
  :effect (forall (?f - field) (when (dry ?f) (valve-open ?f))))
 (:action pump
  :parameters ()
  :precondition (and (exists (?f - field) (valve-open ?f)) (> (tank) 0))
  :effect (forall (?f - field)
   (when (valve-open ?f) (and (increase (moisture ?f) (* (flow) 2)) (decrease (tank) (flow))))))
 (:action measure
  :parameters ()
  :precondition (and)
  :effect (forall (?f - field)
   (when (>= (moisture ?f) (need ?f)) (and (not (dry ?f)) (not (valve-open ?f)))))))
