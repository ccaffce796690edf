"""Files and their texts: what they are, how they are read once, and what other programs write into
them.
"""
