(define (problem airing)
 (:domain thermostat)
 (:objects bedroom - room)
 (:init
  (= (temperature bedroom) 20) (= (low bedroom) 18) (= (high bedroom) 21)
  (= (power bedroom) 3) (= (loss bedroom) 1) (= (gas) 0))
 (:goal (and (not (window-open bedroom)) (>= (temperature bedroom) 18) (<= (gas) 2))))
