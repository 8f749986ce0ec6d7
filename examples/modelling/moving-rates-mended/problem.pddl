(define (problem drained)
 (:domain tank)
 (:init (= (level) 16) (= (drain) 4))
 (:goal (and (not (open)) (<= (level) 0))))
