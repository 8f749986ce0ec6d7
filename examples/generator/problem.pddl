(define (problem one-night)
 (:domain generator)
 (:objects diesel - generator jerrycan spare - can)
 (:init
  (full jerrycan) (full spare)
  (= (fuel diesel) 40) (= (capacity diesel) 40) (= (consumption diesel) 2) (= (energy diesel) 0)
  (= (content jerrycan) 20) (= (flow jerrycan) 5)
  (= (content spare) 20) (= (flow spare) 5))
 (:goal (and (running diesel) (>= (energy diesel) 36) (not (spilt diesel)))))
