2 steps 1/4 domain.pddl problem.pddl four.plan
