0 steps 1/2 domain.pddl problem.pddl lifted.plan
