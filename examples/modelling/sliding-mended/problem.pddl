(define (problem day)
 (:domain office)
 (:init (= (tray) 4))
 (:goal (<= (tray) 10)))
