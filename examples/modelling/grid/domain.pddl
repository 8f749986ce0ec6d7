; A tap fills a basin, and a float shuts it at a mark. A full basin is emptied into bottles.
(define (domain basin)
 (:requirements :negative-preconditions :fluents :time)
 (:predicates (open) (full) (bottled))
 (:functions (level))
 (:action open-tap
  :parameters ()
  :precondition (and (not (open)) (not (full)))
  :effect (open))
 (:action bottle
  :parameters ()
  :precondition (and (full) (>= (level) 6))
  :effect (and (bottled) (decrease (level) 6)))
 (:process fill
  :parameters ()
  :precondition (open)
  :effect (increase (level) (* #t 2)))
 (:event float
  :parameters ()
  :precondition (and (open) (>= (level) 5))
  :effect (and (not (open)) (full))))
