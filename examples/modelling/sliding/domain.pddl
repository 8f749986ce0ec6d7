; Letters come in, and a clerk answers them faster than they come, as long as there are any. At an empty tray the clerk can
; neither go on nor stop: answering empties the tray, and not answering fills it.
(define (domain office)
 (:predicates (answering))
 (:functions (tray))
 (:process arrive
  :parameters ()
  :effect (increase (tray) (* #t 1)))
 (:process answer
  :parameters ()
  :precondition (> (tray) 0)
  :effect (decrease (tray) (* #t 3))))
