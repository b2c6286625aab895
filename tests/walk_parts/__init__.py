"""The random walk over the pages: its town, its people, what they do, and what has to hold after each step."""
