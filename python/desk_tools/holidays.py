"""Names of the federal holidays, for days on which no bus runs. A feed has days and no names."""

import datetime

# By month and day.
FIXED = {
    (1, 1): "New Year's Day",
    (6, 19): "Juneteenth",
    (7, 4): "Independence Day",
    (11, 11): "Veterans Day",
    (12, 25): "Christmas Day",
}
# By month, which weekday of it (0 is Monday), and which of these: -1 is the last one.
MOVING = {
    (1, 0, 3): "Martin Luther King Jr. Day",
    (2, 0, 3): "Presidents Day",
    (5, 0, -1): "Memorial Day",
    (9, 0, 1): "Labor Day",
    (10, 0, 2): "Columbus Day",
    (11, 3, 4): "Thanksgiving Day",
}


def name_of(day: datetime.date) -> str:
    """The holiday's name, or nothing."""
    is_last = (day + datetime.timedelta(days=7)).month != day.month
    places = [(day.day - 1) // 7 + 1, *([-1] if is_last else [])]
    moving = [MOVING.get((day.month, day.weekday(), place), "") for place in places]
    return FIXED.get((day.month, day.day), "") or "".join(moving)
