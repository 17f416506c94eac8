"""Tapes in words: display over what the proved programs say, and nothing found of its own.

Verdict, place, code, the fourth number and what was due are the programs' lines. Names of parts and the lines `because` are worked out
here, from the tape's own entries; they are shown where they lead to exactly what was due, and where they do not it is said.
"""
