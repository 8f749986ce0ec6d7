; Trucks carry parcels between places. A truck has room for some parcels, and drives as far as its fuel lasts.
(define (domain logistics)
 (:requirements :typing :negative-preconditions :equality :fluents)
 (:types truck parcel - thing depot shop - place)
 (:predicates (at ?x - thing ?p - place) (in ?b - parcel ?t - truck))
 (:functions (room ?t - truck) (fuel ?t - truck) (distance ?from ?to - place) (driven) - number)
 (:action load
  :parameters (?b - parcel ?t - truck ?p - place)
  :precondition (and (at ?b ?p) (at ?t ?p) (>= (room ?t) 1))
  :effect (and (in ?b ?t) (not (at ?b ?p)) (decrease (room ?t) 1)))
 (:action unload
  :parameters (?b - parcel ?t - truck ?p - place)
  :precondition (and (in ?b ?t) (at ?t ?p))
  :effect (and (at ?b ?p) (not (in ?b ?t)) (increase (room ?t) 1)))
 (:action drive
  :parameters (?t - truck ?from ?to - place)
  :precondition (and (at ?t ?from) (not (= ?from ?to)) (>= (fuel ?t) (distance ?from ?to)))
  :effect (and (not (at ?t ?from)) (at ?t ?to)
   (decrease (fuel ?t) (distance ?from ?to)) (increase (driven) (distance ?from ?to)))))
