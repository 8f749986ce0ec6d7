; A tank drains the faster the fuller it is. An event looks at the level each interval, and the rate is what it saw until it
; looks again.
(define (domain tank)
 (:functions (level) (drain) (clock) (interval))
 (:process tick
  :parameters ()
  :effect (increase (clock) #t))
 (:process flow
  :parameters ()
  :effect (decrease (level) (* #t (drain))))
 (:event look
  :parameters ()
  :precondition (>= (clock) (interval))
  :effect (and (assign (clock) 0) (assign (drain) (/ (level) 4)))))
