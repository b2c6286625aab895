"""How far a build of the program is: the crates that are done, of all."""

import re
import sys
import threading
import time
from pathlib import Path

SECONDS = 2
# A line of the kit that says of a crate that it was proved, now or before.
DONE = re.compile(r"(?m)^rt: (\w+) (?:proved|is kept)\b")


def lines_of(log: str) -> list[str]:
    """What the kit has said; nothing where a gate in the same folder has set the log aside."""
    try:
        text = Path(log).read_text(encoding="utf-8", errors="replace")
    except OSError:
        return []
    return text.splitlines(keepends=True)


class Progress:
    """Says it on one line, by the kit's log, until it is ended; a line a crate where nobody looks."""

    def __init__(self, crates: list[str], log: str) -> None:
        self.crates, self.log = set(crates), log
        self.ended, self.said = threading.Event(), 0
        self.thread = threading.Thread(target=self.run, daemon=True)

    def run(self) -> None:
        start, is_seen = time.monotonic(), sys.stderr.isatty()
        while not self.ended.wait(SECONDS):
            done = len(self.crates & set(DONE.findall("".join(lines_of(self.log)))))
            minutes = int((time.monotonic() - start) // 60)
            line = f"bin/desk: {done} of {len(self.crates)} crates done, {minutes} minutes so far"
            if is_seen or done != self.said:
                print(
                    f"\r\033[K{line} " if is_seen else line,
                    end="" if is_seen else "\n",
                    file=sys.stderr,
                    flush=True,
                )
            self.said = done

    def __enter__(self) -> None:
        self.thread.start()

    def __exit__(self, *_: object) -> None:
        self.ended.set()
        self.thread.join()
        if sys.stderr.isatty():
            print(file=sys.stderr)
