"""The commands: what they print, the words that they take, and what each of them does.

- the drivers: `driver` (bridge-cbc and kin), `certify` (bridge-certify), with `options` and
  `words`;
- nl-bridge: `nl_bridge`, with `forms` (its table of words) and `front_words`;
- for both: `console` (all that is printed), `completion` (of shells), `minizinc` (a line for its
  user).
"""
