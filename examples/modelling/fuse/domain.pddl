; Two heaters share a fuse, which blows where both are on. Nothing mends it.
(define (domain fuse)
 (:predicates (left-on) (right-on) (whole) (lit))
 (:functions (heat))
 (:action switch-left
  :parameters ()
  :precondition (not (left-on))
  :effect (left-on))
 (:action switch-right
  :parameters ()
  :precondition (not (right-on))
  :effect (right-on))
 (:process warm-left
  :parameters ()
  :precondition (and (left-on) (whole))
  :effect (increase (heat) (* #t 5)))
 (:process warm-right
  :parameters ()
  :precondition (and (right-on) (whole))
  :effect (increase (heat) (* #t 5)))
 (:event blow
  :parameters ()
  :precondition (and (left-on) (right-on) (whole))
  :effect (not (whole))))
