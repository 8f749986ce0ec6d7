; Degrees and hours, in decimals of three digits.
(define (problem decimals)
 (:domain rooms)
 (:objects hall kitchen study bedroom - room)
 (:init
  (beside hall kitchen) (beside kitchen hall) (beside kitchen study) (beside study kitchen) (beside study bedroom) (beside bedroom study)
  (= (leak) 0.117)
  (= (temperature hall) 18.125) (= (low hall) 17.450) (= (high hall) 19.475) (= (power hall) 3.137) (= (loss hall) 1.013)
  (= (temperature kitchen) 19.380) (= (low kitchen) 18.425) (= (high kitchen) 20.450) (= (power kitchen) 2.741) (= (loss kitchen) 0.887)
  (= (temperature study) 20.250) (= (low study) 19.475) (= (high study) 21.450) (= (power study) 2.399) (= (loss study) 0.761)
  (= (temperature bedroom) 17.520) (= (low bedroom) 16.450) (= (high bedroom) 18.475) (= (power bedroom) 1.927) (= (loss bedroom) 0.643))
 (:goal (and)))
