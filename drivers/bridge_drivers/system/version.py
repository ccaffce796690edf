"""The version of the drivers; `pyproject.toml` reads it from here."""

VERSION = "0.1.0"
