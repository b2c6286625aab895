"""What somebody of each role does, with weights."""

from collections.abc import Callable

from walk_parts import acts, case_acts
from walk_parts.acts import Task

COMMON: list[tuple[float, Callable[..., Task]]] = [
    (0.7, acts.anything),
    (0.5, acts.by_tabs),
    (0.7, acts.notes_closed),
]
CASES: list[tuple[float, Callable[..., Task]]] = [
    (0.7, acts.show_rider),
    (0.6, acts.other_part),
    (4.0, case_acts.decide),
    (0.8, case_acts.what_waits),
    (0.7, case_acts.standing_on_a_day),
    (0.6, case_acts.reads_letters),
]
TASKS: dict[str, list[tuple[float, Callable[..., Task]]]] = {
    "clerk": [
        (4.0, acts.show_rider),
        (4.0, acts.book),
        (2.0, acts.change),
        (2.0, acts.cancel),
        (1.0, acts.book_again),
        (0.5, acts.earlier_trips),
        (0.8, acts.other_part),
        (0.4, acts.by_slash),
        (0.5, acts.appeal),
        (0.8, case_acts.decide),
        (0.3, case_acts.what_waits),
        (0.4, case_acts.reads_letters),
        *COMMON,
    ],
    "dispatcher": [
        (2.0, acts.other_part),
        (1.5, acts.another_day),
        (1.0, acts.outcome),
        (0.7, acts.searches_trips),
        (1.5, acts.show_rider),
        (1.0, acts.book),
        (0.5, acts.change),
        (0.5, acts.cancel),
        (0.3, acts.earlier_trips),
        (0.3, case_acts.what_waits),
        *COMMON,
        (2.0, acts.anything),
    ],
    "driver": [
        (1.0, acts.choose_van),
        (5.0, acts.at_the_stop),
        (1.0, acts.anything),
        (0.3, acts.by_tabs),
    ],
    "examiner": [*CASES, *COMMON],
    "officer": [*CASES, *COMMON],
    "admin": [(2.0, acts.other_part), *COMMON, (1.0, acts.anything)],
    "rider": [
        (1.5, acts.other_part),
        (3.0, acts.book),
        (1.0, acts.change),
        (1.0, acts.cancel),
        (1.0, acts.book_again),
        (0.8, acts.appeal),
        (0.5, case_acts.standing_on_a_day),
        (0.8, case_acts.reads_letters),
        *COMMON,
    ],
}
