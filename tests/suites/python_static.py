"""Holds the layout, the types and the lint of the Python: `tests/python_static`.

It runs Debian's black over python/ and tests/, mypy (strict) over python/ and over tests/ but for what pyproject.toml names as
not typed yet, and pylint over both and over bench/. The three run side by side. What is not installed is left out, in one
line. The last line is 'N passed, M failed', and the exit status 1 where something failed.
"""
import concurrent.futures
import os
import pathlib
import shutil
import subprocess
import sys

from desk_tools.tree import TOP


def files_of(folder: str) -> list[str]:
    """The modules of a folder that is no package: each is named, as its own directory is where it is found."""
    return sorted(str(it.relative_to(TOP)) for it in pathlib.Path(TOP, folder).glob("*.py"))


HELPERS = [*files_of("tests"), *files_of("tests/browser")]
HELPERS += [f"tests/{it}" for it in ("walk_parts", "suites", "audits", "second")]
CHECKS = [
    ["black", "--check", "--quiet", "python", "tests"],
    ["mypy", "--no-error-summary", "--cache-dir=/dev/null", "python/desk_tools", *HELPERS],
    ["pylint", "--score=n", "python/desk_tools", *HELPERS, *files_of("bench"), "bench/measures"],
]


def ran(words: list[str]) -> subprocess.CompletedProcess[str] | None:
    """How a program ends with these words, or None where it is not installed."""
    found = ":".join(f"{TOP}/{it}" for it in ("python", "tests", "bench", "tests/browser"))
    path = f"/usr/bin:{os.environ['PATH']}"
    named = {**os.environ, "PYTHONPATH": found, "PYTHONDONTWRITEBYTECODE": "1", "PATH": path}
    if not shutil.which(words[0], path=path):
        return None
    return subprocess.run(words, cwd=TOP, env=named, capture_output=True, text=True, check=False)


def main() -> int:
    passed = failed = 0
    with concurrent.futures.ThreadPoolExecutor(len(CHECKS)) as pool:
        endings = list(pool.map(ran, CHECKS))
    for words, ended in zip(CHECKS, endings):
        if ended is None:
            print(f"{words[0]} is not installed: left out")
            continue
        if ended.returncode:
            print(f"FAILED {' '.join(words)}\n{ended.stdout}{ended.stderr}")
        passed, failed = (passed, failed + 1) if ended.returncode else (passed + 1, failed)
    print(f"{passed} passed, {failed} failed")
    return 1 if failed else 0


if __name__ == "__main__":
    sys.exit(main())
