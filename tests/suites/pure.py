"""Runs the tests of the pages' pure modules by node's own test runner: `tests/pure/run [FILE ..]`.

The last line is 'N passed, M failed', and the exit status 1 where something failed.
"""
import glob
import os
import re
import shutil
import subprocess
import sys

from desk_tools.tree import TOP

HERE = f"{TOP}/tests/pure"


def main():
    files = sys.argv[1:] or sorted(glob.glob(f"{HERE}/*.test.mjs"))
    if not shutil.which("node") or not files:
        print("nodejs is not installed, or there is no file: left out\n0 passed, 0 failed")
        return 0
    words = ["node", "--test", *files]
    ran = subprocess.run(
        words,
        cwd=os.path.dirname(os.path.dirname(HERE)),
        capture_output=True,
        text=True,
        check=False,
    )
    found = {
        word: int(number)
        for word, number in re.findall(r"^# (pass|fail|cancelled) (\d+)$", ran.stdout, re.M)
    }
    failed = found.get("fail", 0) + found.get("cancelled", 0)
    if ran.returncode and not failed:
        failed = 1
    if failed:
        print(ran.stdout + ran.stderr)
    print(f"{found.get('pass', 0)} passed, {failed} failed")
    return 1 if failed else 0


if __name__ == "__main__":
    sys.exit(main())
