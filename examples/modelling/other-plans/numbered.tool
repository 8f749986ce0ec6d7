0 plan-lines --calls numbered.txt
