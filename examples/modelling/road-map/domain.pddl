; A van drives along roads. What is a road is fixed: nothing makes one.
(define (domain road-map)
 (:types van place - object)
 (:predicates (at ?van - van ?place - place) (road ?from ?to - place))
 (:functions (distance ?van - van))
 (:action drive
  :parameters (?van - van ?from ?to - place)
  :precondition (and (at ?van ?from) (road ?from ?to))
  :effect (and (not (at ?van ?from)) (at ?van ?to) (increase (distance ?van) 1))))
