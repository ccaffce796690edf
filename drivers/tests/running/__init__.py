"""How tests run commands: in a folder of their own, as processes, with what is installed here."""
