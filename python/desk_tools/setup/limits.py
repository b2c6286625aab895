"""What the desk takes, and what ends a command. tests/unit/test_law.py holds the numbers against the core's specs."""

from desk_tools import law

LEAST_WIDTH, GREATEST_WIDTH = 3_960, 7_920
GREATEST_COORDINATE, HIGHEST_NUMBER, LAST_MINUTE = 1_000_000, 4_294_967_295, 1_439
MOST_ROUTES, MOST_POINTS, MOST_PLACES, MOST_SEATS, MOST_CHAIRS = 50, 200, 100, 30, 10
# A vehicle has room for so many versions, for good; from the second number on that is said.
MOST_VERSIONS, MANY_VERSIONS = 20, 15
# The most of a no-show policy: so many trips within so many days.
MOST_MISSED, MOST_SPAN_DAYS = 1_000, 366
# Days: how long a decision may be appealed, and how far ahead a trip may be booked.
DAYS_TO_APPEAL, DAYS_AHEAD = law.DAYS_TO_APPEAL, law.DAYS_AHEAD

# How a command ends: all is done, something was refused, the words or the input are wrong, the desk did not answer.
DONE, SOME_REFUSED, WRONG, NOT_ANSWERED = range(4)


class Wrong(Exception):
    """What is wrong with the input, the desk or the folder: one sentence. Nothing more was sent."""


class NotAnswered(Exception):
    """The desk gave no answer for as long as the command waits: the same command goes on later."""
