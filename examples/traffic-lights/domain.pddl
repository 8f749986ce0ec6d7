; Lights let the roads of a junction go in turn. Cars come all the time, and leave while their road has green and any
; wait there. Numbers of cars are means: they need not be whole.
(define (domain traffic-lights)
 (:requirements :typing :fluents :time)
 (:types road phase)
 (:predicates (green ?p - phase) (next ?p ?q - phase) (serves ?p - phase ?r - road))
 (:functions (queue ?r - road) (arrivals ?r - road) (outflow ?r - road) (duration ?p - phase) (elapsed))
 (:action cut-short
  :parameters (?p - phase)
  :precondition (green ?p)
  :effect (assign (elapsed) (duration ?p)))
 (:process tick
  :parameters ()
  :effect (increase (elapsed) #t))
 (:process arrive
  :parameters (?r - road)
  :effect (increase (queue ?r) (* #t (arrivals ?r))))
 (:process leave
  :parameters (?p - phase ?r - road)
  :precondition (and (green ?p) (serves ?p ?r) (> (queue ?r) 0))
  :effect (decrease (queue ?r) (* #t (outflow ?r))))
 (:event change
  :parameters (?p ?q - phase)
  :precondition (and (green ?p) (next ?p ?q) (>= (elapsed) (duration ?p)))
  :effect (and (not (green ?p)) (green ?q) (assign (elapsed) 0))))
