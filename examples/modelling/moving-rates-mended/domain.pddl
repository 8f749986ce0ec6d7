; A tank drains the faster the fuller it is. The rate is a number of its own, which changes at marks: it does not read the
; level, so the level may move at it.
(define (domain tank)
 (:predicates (open))
 (:functions (level) (drain))
 (:action open-valve
  :parameters ()
  :precondition (not (open))
  :effect (open))
 (:process flow
  :parameters ()
  :precondition (open)
  :effect (decrease (level) (* #t (drain))))
 (:event half-empty
  :parameters ()
  :precondition (and (open) (<= (level) 8) (= (drain) 4))
  :effect (assign (drain) 2))
 (:event nearly-empty
  :parameters ()
  :precondition (and (open) (<= (level) 4) (= (drain) 2))
  :effect (assign (drain) 1))
 (:event empty
  :parameters ()
  :precondition (and (open) (<= (level) 0))
  :effect (not (open))))
