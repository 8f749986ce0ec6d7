; The three forms of an amount in a process: #t, a product with #t in front, and one with #t behind.
(define (domain clocks)
 (:functions (hours) (price) (way))
 (:process tick :parameters () :effect (increase (hours) #t))
 (:process pay :parameters () :effect (increase (price) (* #t 3)))
 (:process drive :parameters () :effect (increase (way) (* (/ 50 60) #t))))
