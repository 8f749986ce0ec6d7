(define (problem three-fields)
 (:domain irrigation)
 (:objects upper middle lower - field)
 (:init
  (dry upper) (dry lower)
  (= (moisture upper) 1) (= (moisture middle) 4) (= (moisture lower) 0.5)
  (= (need upper) 2) (= (need middle) 3) (= (need lower) 3)
  (= (tank) 10) (= (flow) 0.75))
 (:goal (and (forall (?f - field) (>= (moisture ?f) (need ?f))) (>= (tank) 7.5))))
