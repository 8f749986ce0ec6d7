0 steps 1 domain.pddl problem.pddl four.plan
