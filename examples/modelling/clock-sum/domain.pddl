; An amount that is no rate: #t stands in a sum.
(define (domain clocks)
 (:functions (hours) (price) (way))
 (:process pay
  :parameters ()
  :effect (increase (price) (+ #t (* #t 2)))))
