"""Which keys hold again, or no longer, once a backup has taken the place of the desk's file.

A backup has the callers of its own moment. A key that was replaced since holds again, also one that was stolen. A key
that was given since holds no longer. Keys themselves are in no file: callers are compared by digest.
"""

from collections.abc import Mapping

from desk_tools.theft import Caller

UNKNOWN = (
    "which keys were replaced since the backup is not known, as the file of before could not be read: a key that was "
    "stolen and replaced since holds again, so give that caller another key once more"
)


def command_for(number: int, caller: Caller) -> str:
    """The command that gives the caller another key and looks at what the old one did since."""
    if caller.role == "rider":
        return f"deploy/stolen-key {caller.subject} --caller {number}"
    if caller.role == "driver":
        return f"deploy/stolen-key --vehicle {caller.subject} --caller {number}"
    return f"deploy/stolen-key --staff {number}"


def lines_of(before: Mapping[int, Caller], then: Mapping[int, Caller]) -> list[str]:
    """A line for each caller who differs. `before` are those of the replaced file, `then` those of the backup."""
    lines = []
    for number in sorted({*before, *then}):
        old, new = before.get(number), then.get(number)
        if old == new:
            continue
        if new is None and old is not None:
            lines.append(
                f"caller {number}, {old.told()}, has no key any more: make the caller again on the Admin page"
            )
        elif old is None and new is not None:
            lines.append(
                f"caller {number}, {new.told()}, was nobody before the restore and has a key again"
            )
        elif old is not None and new is not None:
            lines.append(line_of_change(number, old, new))
    return lines


def line_of_change(number: int, old: Caller, new: Caller) -> str:
    """What a caller has again: the key of then, the role of then, or both."""
    if old.digest == new.digest:
        return f"caller {number} was {old.told()} and is {new.told()} again, as in the backup"
    role = (
        "" if old.is_for(new.role, new.subject) else f" (who was {old.told()} before the restore)"
    )
    return (
        f"caller {number}, {new.told()}{role}: a key that was replaced since the backup holds again, and the newer one does "
        f"not. Give another key: {command_for(number, new)} ..."
    )
