"""The admins of a new desk in callers.csv. Their keys are older than the record, so no line of it names them."""

import os
from dataclasses import replace
from datetime import timezone
from pathlib import Path

from desk_tools.journal import people, taking
from desk_tools.journal.people import Person, digits_of_key
from desk_tools.journal.places import Places

# As `journal begin` makes it: nginx's workers go through the folder, and list nothing.
OF_MACHINE, OF_RECORD = 0o755, 0o710


def name_admins(folder: Path, keys: dict[int, str]) -> None:
    """Adds a row for each admin's key, by the admin's number. Rows of an earlier desk's admins end here."""
    moment = taking.now()
    for path, mode in ((folder.parent, OF_MACHINE), (folder, OF_RECORD)):
        if not path.exists():
            path.mkdir(parents=True)
            os.chmod(path, mode)
    places = Places(folder, "", timezone.utc)
    with places.locked():
        known = people.read(places.callers)
        before = [
            replace(it, until=moment) if it.number in keys and not it.until else it
            for it in known.rows
        ]
        known.put_rows(before)
        known.add(
            *(
                Person(number, "", "admin", 0, moment, "", digits_of_key(key))
                for number, key in keys.items()
            )
        )
        people.keep(places.callers, known)
