; Letters come in, and a clerk answers them faster than they come. The clerk stops where the tray is empty, and begins again
; where ten letters lie in it: two marks, and between them nothing changes.
(define (domain office)
 (:predicates (answering))
 (:functions (tray))
 (:process arrive
  :parameters ()
  :effect (increase (tray) (* #t 1)))
 (:process answer
  :parameters ()
  :precondition (answering)
  :effect (decrease (tray) (* #t 3)))
 (:event stop
  :parameters ()
  :precondition (and (answering) (<= (tray) 0))
  :effect (not (answering)))
 (:event begin
  :parameters ()
  :precondition (and (not (answering)) (>= (tray) 10))
  :effect (answering)))
