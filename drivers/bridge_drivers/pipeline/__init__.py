"""The way of a model from its source to an outcome.

Its functions are functions of values: they print nothing and parse no words.

- what is asked: `settings`, and `option_values` (options by name);
- the run: `memory` and `read_model` (models), `solve` (one run), `answered_run` (the solver's
  answer and what is proved of it), `monitor` (what a run tells while it goes on);
- the answer: `answer` (in decimals), `answer_places` and `row_factors` (as the search takes it),
  `certification`, `judge` and `stored_certificate` (what is proved, and kept);
- what is told: `check_words` (of a point and duals), `outcome` (the code), `resolution` (what is passed on), `outputs` (files), `report`
  (of a call), `statistics` (of a model).

The calls of the package (`api`), `pulp_solver` and the commands use it.
"""
