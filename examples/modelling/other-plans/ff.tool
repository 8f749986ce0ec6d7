0 plan-lines --calls ff.txt
