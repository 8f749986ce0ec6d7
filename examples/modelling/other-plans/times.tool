0 plan-lines times.txt
