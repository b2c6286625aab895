"""Whether a desk that was started serves. That systemd has started a unit does not say so: the desk may end right after.

A desk serves where it answers a key of nobody with 401, and the same process does so once more a moment later.
"""

from __future__ import annotations

import http.client
import os
import subprocess
import time
from typing import Any

from .ending import Failure

SHEET, NOBODY, KNOWN = "/days/2000-01-01/sheet", "no key of anybody", 401
# An opening takes seconds for each 100,000 trips. systemd gives a desk up long before that where it ends again and again.
LONGEST_OPENING = 600
# The same process answers twice, so many seconds apart.
BETWEEN = 1
SHOWN = "ActiveState,MainPID"


class NotServing(Failure):
    """The desk was started, and does not serve."""


def status_at(port: Any, patience: int = 10) -> Any:
    """The status of the answer to a key of nobody, or None."""
    line = http.client.HTTPConnection("127.0.0.1", port, timeout=patience)
    try:
        line.request("GET", SHEET, headers={"Desk-Key": NOBODY})
        return line.getresponse().status
    except (OSError, http.client.HTTPException):
        return None
    finally:
        line.close()


def shown(unit: Any) -> Any:
    """The state of the unit, and the number of its process. SHOW may be another command, which gets the unit's name."""
    command = os.environ.get("SHOW") or f"systemctl show --property={SHOWN}"
    told = subprocess.run(
        [*command.split(), unit],
        capture_output=True,
        text=True,
        stdin=subprocess.DEVNULL,
        check=False,
    )
    return dict(line.split("=", 1) for line in told.stdout.splitlines() if "=" in line)


def wait_until_it_serves(unit: Any, port: Any, longest: Any = LONGEST_OPENING) -> None:
    """Until the desk serves; where it does not, a failure that says what is so."""
    end, before = time.monotonic() + longest, None
    why = f"did not answer on port {port} within {longest} seconds"
    while time.monotonic() < end:
        seen = shown(unit)
        if seen.get("ActiveState") in ("failed", "inactive"):
            why = "ended again and again" if seen["ActiveState"] == "failed" else "ended"
            break
        process = seen.get("MainPID", "0")
        status = status_at(port) if process != "0" else None
        if status == KNOWN and process == before:
            return
        before = process if status == KNOWN else None
        time.sleep(BETWEEN if before else 0.2)
    raise NotServing(f"the desk was started and {why}: journalctl -u {unit} says why")
