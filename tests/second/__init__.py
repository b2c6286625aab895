"""A second desk, plain and slow, written from docs/RULES.md, docs/FORMATS.md and docs/API.md alone: one file a table or a rule.

`trials` holds it against the program; tests/second_desk runs that.
"""
