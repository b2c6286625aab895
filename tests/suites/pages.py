"""Tries the pages in a real browser: `pages [--install] [--pictures] [--only NAME] [--towns FOLDER] PROGRAM`.

Each file of tests/browser that holds checks gets a town of its own: a desk served by PROGRAM with a clock of its own
(faketime), the site of deploy/desk.nginx before it, an agency with its riders, vans, places and trips. The files run
side by side, two for each processor, since a browser waits about half of its time. A check that failed beside others
runs once more by itself in a new town, else the whole file does, and that counts. --only runs one of them (or several,
by commas). --towns keeps the databases of the towns in a folder, so that the next run begins sooner. --pictures makes
the pictures of docs/pictures anew. --install first installs what it takes by apt, as root. The environment may name
another library than Debian's libfaketime as FAKETIME_LIBRARY, other pages as PAGES_FOLDER, a folder for what was seen
where a check failed as PAGES_SIGHTS, and parts of the names of checks, by commas, as PAGES_CHECK. The last line is
'N passed, M failed', and the exit status 1 where something failed.
"""
import concurrent.futures
import glob
import os
import re
import shutil
import subprocess
import sys
import tempfile
import threading
import time

from desk_tools.arguments import usage_of
from desk_tools.tree import TOP

PYTHON = "/usr/bin/python3"
PACKAGES = """
    chromium chromium-driver nginx faketime openssl poppler-utils python3-selenium python3-brotli
    zbar-tools
""".split()
# Those that take longest begin first.
FILES = """
    accessible spanish story common broken_line printed names moved_in booking addresses driver
    dispatcher out_of_service clerk cases week admin record rider counted left_open offers no_store
    played_day law
""".split()
LONGEST, BESIDE = 2700, 2
# What stands in the list of failed checks for a file that ended before its last one.
UNENDED = ""


def missing():
    """What is not here, by the names of its packages."""
    tools = {
        "chromium": "chromium",
        "chromium-driver": "chromedriver",
        "nginx": "nginx",
        "openssl": "openssl",
        "poppler-utils": "pdftotext",
        "zbar-tools": "zbarimg",
    }
    absent = [package for package, tool in tools.items() if not shutil.which(tool)]
    library = os.environ.get("FAKETIME_LIBRARY") or glob.glob(
        "/usr/lib/*/faketime/libfaketime.so.1"
    )
    absent += [] if library else ["faketime"]
    for package, module in [("python3-selenium", "selenium"), ("python3-brotli", "brotli")]:
        is_there = (
            os.path.exists(PYTHON)
            and not subprocess.run(
                [PYTHON, "-c", f"import {module}"], capture_output=True
            ).returncode
        )
        absent += [] if is_there else [package]
    return absent


def installed():
    """Whether apt has all packages now; where its lists are old, they are read anew."""
    install = ["apt-get", "install", "--yes", "--quiet", "--no-install-recommends", *PACKAGES]
    for commands in [[install], [["apt-get", "update", "--quiet"], install]]:
        if not any(subprocess.run(it, capture_output=True).returncode for it in commands):
            return True
    return False


def run(name, words, towns, only=()):
    """Runs a file of checks, or those of these names, and prints what it says as it comes; how many passed, and which failed."""
    began, passed, failed, ended = time.monotonic(), 0, [], False
    script = [PYTHON, "-P", "-B", "-m", "checks", name, os.path.abspath(words.program), towns]
    named = {**os.environ, "PAGES_CHECK": ",".join(only)} if only else None
    with subprocess.Popen(
        script, stdout=subprocess.PIPE, stderr=subprocess.STDOUT, text=True, env=named
    ) as process:
        bound = threading.Timer(LONGEST, process.kill)
        bound.start()
        for line in process.stdout:
            if tally := re.fullmatch(r"(\d+) passed, (\d+) failed\n", line):
                passed, ended = int(tally[1]), True
            else:
                if found := re.match(rf"{name}: FAILED: ([^:]+):", line):
                    failed.append(found[1].replace(" ", "_"))
                print(
                    line if line.startswith(f"{name}: ") else f"{name}: {line}", end="", flush=True
                )
        bound.cancel()
    if not ended:
        failed.append(UNENDED)
        print(f"{name}: FAILED: it ended without its tally", flush=True)
    print(
        f"{name}: {passed} passed, {len(failed)} failed in {time.monotonic() - began:.0f} s",
        flush=True,
    )
    return passed, failed


def run_again(name, words, towns, before):
    """What failed beside others is tried once more by itself: those checks in a new town, else the whole file."""
    passed, failed = before
    if UNENDED not in failed:
        print(
            f"{name}: what failed beside others is tried once more by itself, and that counts",
            flush=True,
        )
        more, still = run(name, words, towns, failed)
        if more and not still:
            return passed + more, []
    print(f"{name}: the whole file is tried once more by itself, and that counts", flush=True)
    return run(name, words, towns)


def wanted_words():
    parser = usage_of("tests/pages", __doc__)
    parser.flag("--install")
    parser.flag("--pictures")
    parser.takes("--only", default="")
    parser.takes("--towns", default="")
    parser.takes("program PROGRAM")
    words = parser.parse_args()
    if not os.path.isfile(words.program):
        parser.error(f"{words.program} is no file")
    there = [name for name in FILES if os.path.exists(f"{TOP}/tests/browser/{name}.py")]
    words.files = words.only.split(",") if words.only else there + ["pictures"] * words.pictures
    if strange := [name for name in words.files if name not in [*there, "pictures"]]:
        parser.error(f"{', '.join(strange)}: the files of checks are {', '.join(there)}")
    return words


def main():
    # (nginx is where not everybody looks)
    os.environ["PATH"] = f"{os.environ.get('PATH', '/usr/bin:/bin')}:/usr/sbin"
    words = wanted_words()
    if words.install and not installed():
        print(
            "tests/pages: apt-get does not install what this takes; it needs root and a line",
            file=sys.stderr,
        )
        return 1
    if absent := missing():
        print(
            f"tests/pages: the pages are not tried, since {', '.join(absent)} is not here; --install installs it"
        )
        print("0 passed, 0 failed")
        return 0
    beside = min(len(words.files), BESIDE * (os.cpu_count() or 1))
    with tempfile.TemporaryDirectory(
        prefix="desk-pages-"
    ) as folder, concurrent.futures.ThreadPoolExecutor(beside) as pool:
        tallies = dict(
            zip(
                words.files,
                pool.map(lambda name: run(name, words, words.towns or folder), words.files),
            )
        )
        for name in [name for name, (_, failed) in tallies.items() if failed] if beside > 1 else []:
            tallies[name] = run_again(name, words, words.towns or folder, tallies[name])
    passed, failed = sum(it for it, _ in tallies.values()), sum(
        len(it) for _, it in tallies.values()
    )
    print(f"{passed} passed, {failed} failed")
    return 1 if failed else 0


if __name__ == "__main__":
    sys.exit(main())
