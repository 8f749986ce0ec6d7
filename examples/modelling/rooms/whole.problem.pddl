; Degrees and hours, in small whole numbers.
(define (problem whole)
 (:domain rooms)
 (:objects hall kitchen study bedroom - room)
 (:init
  (beside hall kitchen) (beside kitchen hall) (beside kitchen study) (beside study kitchen) (beside study bedroom) (beside bedroom study)
  (= (leak) 1)
  (= (temperature hall) 18) (= (low hall) 17) (= (high hall) 19) (= (power hall) 3) (= (loss hall) 1)
  (= (temperature kitchen) 19) (= (low kitchen) 18) (= (high kitchen) 20) (= (power kitchen) 3) (= (loss kitchen) 1)
  (= (temperature study) 20) (= (low study) 19) (= (high study) 21) (= (power study) 3) (= (loss study) 1)
  (= (temperature bedroom) 17) (= (low bedroom) 16) (= (high bedroom) 18) (= (power bedroom) 3) (= (loss bedroom) 1))
 (:goal (and)))
