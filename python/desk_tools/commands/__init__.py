"""Commands of bin/, deploy/ and packaging/: a module each, which the file of that name starts."""
