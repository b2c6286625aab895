"""The rules by which the desk denies a trip, in the order in which it tries them (docs/API.md, POST /trips)."""

from desk_tools import law

NO_VEHICLE = "no vehicle"
RULES = {
    NO_VEHICLE: "no vehicle could take the trip (a capacity denial, 37.131(f))",
    "37.125": "the rider has no standing on that day",
    "37.127(e)": f"the visitor has used {law.DAYS_OF_A_VISITOR} days of the year",
    "37.125(h)": "the rider is suspended on that day",
    "37.123(b)": "no condition of the rider's grant holds of the trip",
    "37.123(f)": "more companions, or another attendant, than the rider may bring",
    "37.131(b)": f"the day is today, past, or more than {law.DAYS_AHEAD} days ahead",
    "37.131(a)": "an end lies in no corridor of a fixed route",
    "37.131(e)": "no fixed route runs there on that weekday at that minute",
}
