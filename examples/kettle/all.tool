1 check-all domain.pddl problem.pddl tea.plan early.plan twice.plan
