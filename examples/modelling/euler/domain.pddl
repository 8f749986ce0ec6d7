; A cup of tea cools the faster the hotter it is: the rate reads the temperature, and the temperature moves at that rate.
(define (domain cup)
 (:predicates (poured))
 (:functions (temperature) (room))
 (:action pour
  :parameters ()
  :precondition (not (poured))
  :effect (poured))
 (:process cool
  :parameters ()
  :precondition (poured)
  :effect (decrease (temperature) (* #t (/ (- (temperature) (room)) 4)))))
