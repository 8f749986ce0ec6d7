1 plan-lines unknown.txt
