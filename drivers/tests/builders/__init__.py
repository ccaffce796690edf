"""Builders of models and answers that the tests share: what a builder makes, and which optimum is known."""
