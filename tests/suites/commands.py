"""Gives each command of bin/ and deploy/ what people give it by mistake: `tests/commands`.

Each command gets unknown words, files that are not there, files of any bytes, a reader who goes away, a full disk and
Ctrl+C. It must end in time, with a status, with at most a few lines on standard error, and never with a traceback. The
last line is 'N passed, M failed'.
"""
import concurrent.futures
import glob
import os
import re
import shutil
import signal
import subprocess
import sys
import tempfile
import time
from pathlib import Path

from desk_tools.tree import TOP

# These prove, build or test for minutes, or are called by another program that gives the words.
# Their help is tried all the same.
OTHERS = ("bin/gate", "bin/check", "bin/desk", "bin/office", "deploy/try", "deploy/acme-hook")
# What commands read of the tree.
PARTS = ("bin", "deploy", "python", "packaging", "pages", "tests/rehearsals")
# What changes a machine has to be root's, and is tried as nobody, who may change nothing.
NOBODY = 65534
SECONDS, SECONDS_OF_HELP, MOST_LINES = 120, 30, 24
# What runs a command whose standard output is closed; and what stands for a terminal that has no other letters.
CLOSED = ("sh", "-c", '"$0" "$@" >&-')
ASCII = {"PYTHONIOENCODING": "ascii", "PYTHONUTF8": "0", "PYTHONCOERCECLOCALE": "0", "LC_ALL": "C"}
CRASH = re.compile(r"Traceback|Exception ignored|panicked at|core dumped")
# Commands that wait, with the words that make them.
WAITING = {
    "bin/why": ["-"],
    "bin/rehearsal": ["check", "-"],
    "deploy/today": ["LOG", "FOLDER/today.json", "--agency", "AGENCY"],
    "deploy/health": ["--port", "PORT"],
}


def every():
    """The path of each command below the top of the tree."""
    paths = [
        *sorted(glob.glob(f"{TOP}/bin/*") + glob.glob(f"{TOP}/deploy/*")),
        f"{TOP}/packaging/desk-setup",
    ]
    names = [
        os.path.relpath(it, TOP) for it in paths if os.path.isfile(it) and os.access(it, os.X_OK)
    ]
    return [it for it in names if not it.startswith("deploy/try")]


def commands():
    """Those that are tried with any words."""
    return [it for it in every() if it not in OTHERS]


def environment():
    """That of a person's shell: output is buffered, which a full disk shows at the end."""
    return {name: value for name, value in os.environ.items() if not name.startswith("PYTHON")} | {
        "PYTHONDONTWRITEBYTECODE": "1"
    }


def ran(name, words, folder, output=subprocess.PIPE, before=(), more=None):
    """How a command ends: its status (None: it does not), and what it says. `before` are words of a program that runs it."""
    user = {"user": NOBODY, "group": NOBODY, "extra_groups": []} if os.geteuid() == 0 else {}
    try:
        done = subprocess.run(
            [*before, f"{TOP}/{name}", *words],
            cwd=folder,
            env=environment() | (more or {}),
            stdin=subprocess.DEVNULL,
            stdout=output,
            stderr=subprocess.PIPE,
            timeout=SECONDS,
            **user,
        )
    except subprocess.TimeoutExpired:
        return None, ""
    return done.returncode, (done.stderr + (done.stdout or b"")).decode("utf-8", "replace")


def fault_of(status, said, wanted):
    """What is wrong with an end, or None."""
    if status is None:
        return "does not end"
    if CRASH.search(said):
        return f"ends with a traceback:\n{said}"
    if status not in wanted:
        return f"ends with status {status}, and says: {said[:300]!r}"
    return None


def tries(name, folder):
    """Each try of a command as a label, its words, and the statuses that it may end with."""
    wrong = range(1, 5)
    yield "an unknown option", ["--no-such-option"], [2]
    # Without a log today waits for one.
    for count in (1, 2, 3) if name != "deploy/today" else (1, 3):
        yield f"{count} files that are not there", ["/no/such/file"] * count, range(
            0, 5
        ) if count == 1 else wrong
        yield f"{count} files of any bytes", [f"{folder}/bytes"] * count, range(0, 5)
        yield f"{count} files of JSON that is nested deeply", [f"{folder}/deep"] * count, range(
            0, 5
        )
    yield "a word that is not UTF-8", [b"\xff\xfe"], range(0, 5)
    yield "an empty word", [""], range(0, 5)


def faults_of(name):
    """What a command does otherwise than it must; a text or None for each try."""
    with tempfile.TemporaryDirectory(prefix="desk-commands-") as folder:
        os.chmod(folder, 0o777)
        Path(f"{folder}/bytes").write_bytes(bytes(range(256)) * 40)
        Path(f"{folder}/deep").write_text("[" * 100_000, "utf-8")
        # (files of the folder in which somebody works are none of a command's modules)
        for module in "argparse", "json", "pathlib":
            Path(f"{folder}/{module}.py").write_text("raise SystemExit(99)\n", "utf-8")
        for label, words, wanted in tries(name, folder):
            status, said = ran(name, words, folder)
            fault = fault_of(status, said, wanted)
            if not fault and len(said.splitlines()) > MOST_LINES:
                fault = f"says {len(said.splitlines())} lines"
            yield fault and f"{name}, {label}: {fault}"
        for label, output_end in (
            ("a reader who goes away", closed_pipe),
            ("a full disk", full_disk),
        ):
            output = output_end()
            status, said = ran(name, ["--help"], folder, output)
            os.close(output)
            # (a script of the shell ends by SIGPIPE)
            fault = fault_of(
                status, said, [0, 1, 2, -signal.SIGPIPE] if output_end is closed_pipe else [0, 1, 2]
            )
            yield fault and f"{name}, {label}: {fault}"
        status, said = ran(name, ["--help"], folder, before=CLOSED)
        fault = fault_of(status, said, [0, 1, 2])
        yield fault and f"{name}, a closed output: {fault}"
        status, said = ran(name, ["--help"], folder, more=ASCII)
        fault = fault_of(status, said, [0])
        yield fault and f"{name}, a terminal of ASCII: {fault}"
        if name in WAITING:
            yield interrupted(name, folder)


def fault_of_help(name):
    """What is wrong with a command's help, or None: it is on standard output, at once, and names the command."""
    called = os.path.basename(name) if name.startswith("packaging/") else name
    try:
        done = subprocess.run(
            [f"{TOP}/{name}", "--help"],
            cwd="/",
            env=environment(),
            stdin=subprocess.DEVNULL,
            capture_output=True,
            text=True,
            timeout=SECONDS_OF_HELP,
        )
    except subprocess.TimeoutExpired:
        return f"{name}, --help: does not end"
    if done.returncode or done.stderr or called not in done.stdout:
        return f"{name}, --help: status {done.returncode}, on standard error {done.stderr[:200]!r}, and the help is {done.stdout[:200]!r}"
    return None


def closed_pipe():
    reader, writer = os.pipe()
    os.close(reader)
    return writer


def full_disk():
    return os.open("/dev/full", os.O_WRONLY)


def interrupted(name, folder):
    """Ctrl+C while a command waits."""
    values = {
        "LOG": f"{folder}/log",
        "AGENCY": f"{TOP}/pages/agency.json",
        "PORT": str(20_000 + os.getpid() % 10_000),
    }
    words = [values.get(it, it.replace("FOLDER", folder)) for it in WAITING[name]]
    open(f"{folder}/log", "x").close()
    running = subprocess.Popen(
        [f"{TOP}/{name}", *words],
        cwd=folder,
        env=environment(),
        stdin=subprocess.PIPE,
        stdout=subprocess.PIPE,
        stderr=subprocess.PIPE,
    )
    time.sleep(3)
    if running.poll() is not None:
        return f"{name}, Ctrl+C: it had ended before, with {running.returncode}: {running.stderr.read().decode('utf-8', 'replace')[:300]}"
    running.send_signal(signal.SIGINT)
    try:
        said = b"".join(running.communicate(timeout=SECONDS)).decode("utf-8", "replace")
    except subprocess.TimeoutExpired:
        running.kill()
        return f"{name}, Ctrl+C: it goes on"
    fault = fault_of(running.returncode, said, [0, 1, 130])
    return fault and f"{name}, Ctrl+C: {fault}"


def main():
    # A shell's job in the background ignores Ctrl+C, and what it starts would too.
    signal.signal(signal.SIGINT, signal.default_int_handler)
    # (in a copy that nobody may read, also where the tree is in a folder of root's)
    global TOP
    with tempfile.TemporaryDirectory(
        prefix="desk-commands-"
    ) as room, concurrent.futures.ThreadPoolExecutor(os.cpu_count()) as pool:
        for name in PARTS:
            shutil.copytree(
                f"{TOP}/{name}",
                f"{room}/{name}",
                symlinks=True,
                ignore=shutil.ignore_patterns("__pycache__"),
            )
        os.chmod(room, 0o755)
        TOP = room
        found = [
            fault
            for faults in pool.map(lambda name: list(faults_of(name)), commands())
            for fault in faults
        ]
        found += pool.map(fault_of_help, every())
    faults = [it for it in found if it]
    for fault in faults:
        print(f"tests/commands: FAILED: {fault}")
    print(f"{len(found) - len(faults)} passed, {len(faults)} failed")
    return 1 if faults else 0


if __name__ == "__main__":
    sys.exit(main())
