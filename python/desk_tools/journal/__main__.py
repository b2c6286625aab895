"""Starts `bin/journal`."""

from desk_tools import ending
from desk_tools.journal.command import main

ending.run("bin/journal", main)
