"""Numbers of 49 CFR Part 37 that people are told beforehand. What holds on a day is asked of the desk.

They are days, unless a name says minutes. tests/unit/test_law.py holds each against the core's specs.
"""

# After so many days without an answer an application is presumed granted (37.125(c)).
DAYS_UNTIL_PRESUMED = 21
# So long a decision may be appealed (37.125(g)(1)).
DAYS_TO_APPEAL = 60
# So many days after its hearing an appeal against a refusal is overdue (37.125(g)(3)).
DAYS_UNTIL_OVERDUE = 30
# A trip is booked from the next day to so many days ahead (37.131(b)).
DAYS_AHEAD = 14
# A pickup is promised within so many minutes of the wish (37.131(b)(2)).
MINUTES_TO_NEGOTIATE = 60
# A visitor may ride on so many days of a period, which has so many days (37.127(e)).
DAYS_OF_A_VISITOR, DAYS_OF_A_VISITORS_PERIOD = 21, 365
