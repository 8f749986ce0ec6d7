(define (problem two-buckets)
 (:domain roof)
 (:objects large small - bucket)
 (:init
  (= (level large) 0) (= (leak large) 1)
  (= (level small) 3) (= (leak small) 1)
  (= (rings) 0))
 (:goal (= (rings) 3)))
