(define (problem drained)
 (:domain tank)
 (:init (= (level) 16) (= (drain) 4) (= (clock) 0) (= (interval) 0.1))
 (:goal (<= (level) 1)))
