"""The record of who did what: the site's lines, chained and signed, and the questions that they answer."""
