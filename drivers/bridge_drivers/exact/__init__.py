"""The search for certificates: a program in whole numbers and a judge in, a certificate out.

Nothing that is found here is trusted: a judge that the caller gives is asked of each text, and its
line is all that is told. The front is `certifier.certify`. From below:

- exact numbers: `linear_systems`, `basis`, `rational_simplex`, `lattice`, `hermite`; CLP (`clp`,
  `relaxation`);
- bounds and leaves: `dual_bound`, `leaf_proofs`, `short_duals`; points: `points`, `short_points`;
- solutions in few digits, of points and duals alike: `row_system` (what they satisfy),
  `inside_direction`, `peeling_order`, `shared_remainders`, `sum_width` (whether the judge can add
  them), and `short_solutions`, which tries them one after the other;
- certificates: `tree` (nodes as data), `certificate` (its text);
- cuts: `mir`, `mir_separation`, `cliques`, `cuts` (rounds at the root);
- branch and bound: `node`, `fathoming`, `branching`, `exact_leaf`, `search`; by several processes
  `parallel` and `worker_pools`; strategies (`strategies`) that race in `portfolio`, beside
  which `preparing` makes what others begin with;
- what is claimed: `evidence`, `task`, `refutations`, `linear_certifier`, `integer_certifier`,
  `certifier`; time: `search_deadline`, `work_limit`.
"""
