"""A real town: its addresses, its spreadsheets as they are, and driving times from a map."""
