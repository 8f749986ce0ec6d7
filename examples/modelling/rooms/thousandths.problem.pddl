; The same in thousandths of a degree: the numbers are whole, and no smaller.
(define (problem thousandths)
 (:domain rooms)
 (:objects hall kitchen study bedroom - room)
 (:init
  (beside hall kitchen) (beside kitchen hall) (beside kitchen study) (beside study kitchen) (beside study bedroom) (beside bedroom study)
  (= (leak) 117)
  (= (temperature hall) 18125) (= (low hall) 17450) (= (high hall) 19475) (= (power hall) 3137) (= (loss hall) 1013)
  (= (temperature kitchen) 19380) (= (low kitchen) 18425) (= (high kitchen) 20450) (= (power kitchen) 2741) (= (loss kitchen) 887)
  (= (temperature study) 20250) (= (low study) 19475) (= (high study) 21450) (= (power study) 2399) (= (loss study) 761)
  (= (temperature bedroom) 17520) (= (low bedroom) 16450) (= (high bedroom) 18475) (= (power bedroom) 1927) (= (loss bedroom) 643))
 (:goal (and)))
