"""Runs the unit tests of the typed Python by Debian's pytest: `tests/unit/run [WORDS OF PYTEST ..]`.

The last line is 'N passed, M failed', and the exit status 1 where something failed.
"""
import os
import re
import subprocess
import sys

from desk_tools.tree import TOP

# Debian's Python has Debian's pytest; another one may come first on the path.
PYTHON = "/usr/bin/python3"


def main():
    if subprocess.run(
        [PYTHON, "-c", "import pytest, hypothesis"], capture_output=True, check=False
    ).returncode:
        print("python3-pytest or python3-hypothesis is not installed: left out\n0 passed, 0 failed")
        return 0
    named = {**os.environ, "PYTHONDONTWRITEBYTECODE": "1"}
    words = [PYTHON, "-m", "pytest", *sys.argv[1:]]
    ran = subprocess.run(words, cwd=TOP, env=named, capture_output=True, text=True, check=False)
    print(ran.stdout + ran.stderr)
    last = (ran.stdout.strip().split("\n") or [""])[-1]
    counts = {
        word: int(number) for number, word in re.findall(r"(\d+) (passed|failed|errors?)", last)
    }
    failed = sum(number for word, number in counts.items() if word != "passed")
    # 5 is pytest's status where there is no test.
    if ran.returncode not in (0, 5) and not failed:
        failed = 1
    print(f"{counts.get('passed', 0)} passed, {failed} failed")
    return 1 if failed else 0


if __name__ == "__main__":
    sys.exit(main())
