"""Files, processes, words and errors: what every other package stands on.

Nothing here knows models.
"""
