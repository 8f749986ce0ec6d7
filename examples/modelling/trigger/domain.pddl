; A bucket that runs over rings a bell, once each time. The trigger remembers that it rang, and is taken back where the bucket
; is empty.
(define (domain roof)
 (:types bucket)
 (:predicates (trigger ?b - bucket))
 (:functions (level ?b - bucket) (leak ?b - bucket) (rings))
 (:action pour-out
  :parameters (?b - bucket)
  :effect (assign (level ?b) 0))
 (:process drip
  :parameters (?b - bucket)
  :effect (increase (level ?b) (* #t (leak ?b))))
 (:event ring
  :parameters (?b - bucket)
  :precondition (and (not (trigger ?b)) (>= (level ?b) 6))
  :effect (and (trigger ?b) (increase (rings) 1)))
 (:event forget
  :parameters (?b - bucket)
  :precondition (and (trigger ?b) (<= (level ?b) 0))
  :effect (not (trigger ?b))))
