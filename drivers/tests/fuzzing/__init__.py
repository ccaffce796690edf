"""Fuzzing of the drivers by seed: `dev/fuzz` runs it, and ten seconds of it are a test."""
