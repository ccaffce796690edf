import pulp
from bridge_drivers.pulp_solver import BridgeCmd

problem = pulp.LpProblem("menu", pulp.LpMinimize)
a, b = pulp.LpVariable("a", 0), pulp.LpVariable("b", 0, 4, pulp.LpInteger)
problem += 0.9 * a + b
problem += a + b >= 4, "energy"
problem += a + 3 * b >= 6, "protein"
problem.solve(BridgeCmd("bridge-cbc", prove=True))
print(pulp.LpStatus[problem.status], a.value(), b.value(), pulp.value(problem.objective))
