"""The proved program: how it is called, how its verdicts are read, and its refusals in words."""
