0 plan-lines enhsp.txt
