(define (problem two-trains)
 (:domain crossing)
 (:objects express freight - train)
 (:init
  (= (angle) 90) (= (speed) 10) (= (waited) 0)
  (at 40 (inside express)) (at 45 (not (inside express)))
  (at 100 (inside freight)) (at 120 (not (inside freight))))
 (:goal (and (forall (?t - train) (not (hit ?t))) (>= (angle) 90) (<= (waited) 70))))
