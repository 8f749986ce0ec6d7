; Ten villages along a river, one road from each to the next and one back.
(define (problem river)
 (:domain road-map)
 (:objects red - van v0 v1 v2 v3 v4 v5 v6 v7 v8 v9 - place)
 (:init (at red v0) (= (distance red) 0)
  (road v0 v1) (road v1 v2) (road v2 v3) (road v3 v4) (road v4 v5) (road v5 v6) (road v6 v7) (road v7 v8) (road v8 v9)
  (road v1 v0) (road v2 v1) (road v3 v2) (road v4 v3) (road v5 v4) (road v6 v5) (road v7 v6) (road v8 v7) (road v9 v8))
 (:goal (at red v4)))
