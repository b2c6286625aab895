"""Tries bin/gate over scripts that pass, fail, fail once and say nothing, its list of mutants, bin/meter on what it keeps
of earlier runs, and tests/rehearsals/run on a program that is none.

The last line is 'N passed, M failed'.
"""
import json
import os
import re
import shutil
import subprocess
import sys
import tempfile

from desk_tools.tree import TOP

# The scripts that the gate runs, as it names them.
with open(f"{TOP}/python/desk_tools/commands/gate.py", encoding="utf-8") as gate:
    SCRIPTS = re.findall(
        r'"((?:tests|deploy)/[\w/-]+)(?: \d+)?"', gate.read().partition("\nTALLY")[0]
    )
# What is counted: each script, and what `rt ci` says.
COUNTED = len(SCRIPTS) + 1
# Fails where it runs for the first time.
FAILS_ONCE = """\
if test -e "$0.ran"; then echo 2 passed, 0 failed; else touch "$0.ran"; echo 0 passed, 1 failed; exit 1; fi"""
# What the scripts of a repository say, the status that they end with, and how its gate must end.
GATES = {
    "all is well": ("echo 2 passed, 0 failed", f"{2 * COUNTED} passed, 0 failed", 0),
    "one of each failed": (
        "echo 1 passed, 1 failed; exit 1",
        f"{COUNTED} passed, {COUNTED} failed",
        1,
    ),
    "no tally": ("echo well", f"0 passed, {COUNTED} failed", 1),
    "a tally before the end": (
        "echo 2 passed, 0 failed; echo more",
        f"0 passed, {COUNTED} failed",
        1,
    ),
    "a status that no tally tells": (
        "echo 2 passed, 0 failed; exit 3",
        f"0 passed, {COUNTED} failed",
        1,
    ),
    "a mutant that does not compile": (
        "echo 'rt: must-fail pt_one/wrong.edit: BAD EDIT: it did not reach the prover'; echo 2 passed, 0 failed",
        f"{2 * COUNTED} passed, 1 failed",
        1,
    ),
    # `rt ci` alone is not run a second time.
    "each script fails once, beside others": (FAILS_ONCE, f"{2 * COUNTED - 2} passed, 1 failed", 1),
}
# What `rt` does where it proves a crate and tries a mutant of it: processes that look like the prover's.
CHECKS = """\
for folder in . /tmp/rt-edits-1/seed; do
    kit/rattle -c 'import time; sum(range(10 ** 6)); time.sleep(0.6)' check --crate-name pt_one $folder &
done
wait
exit 3"""
# Lines of tables, each blank once. What was kept from an earlier run has a mark; no run here spends 0.1 minutes.
HEADER = "processor minutes proof tests mutants all"
MARKED = [
    "* spent by an earlier run on this machine on the same text of the crate; this run spent less or nothing",
    "this run itself spent 0.0: proof 0.0, tests 0.0, mutants 0.0",
]
KEPT = [HEADER, "pt_one 2.6* 0.0 5.1* 7.7", "all 2.6 0.0 5.1 7.7", *MARKED]
KEPT_OF_PROOF = [HEADER, "pt_one 2.6* 0.0 0.0 2.6", "all 2.6 0.0 0.0 2.6", *MARKED]
SPENT = [HEADER, "pt_one 0.0 0.0 0.0 0.0", "all 0.0 0.0 0.0 0.0"]
NOTHING = [HEADER, "all 0.0 0.0 0.0 0.0"]
# Runs of the meter one after the other, once a proof of 2.6 minutes and mutants of 5.1 are kept: which file of the
# crate changes before, what `rt` does, what follows `rt ci`, and the table.
RUNS = {
    "nothing is done again": (None, "exit 3", (), KEPT),
    "it is done again and costs less": (None, CHECKS, ("--quiet",), KEPT),
    "a crate is named": (None, "exit 3", ("pt_one",), NOTHING),
    "a mutant has changed": ("must-fail/wrong.edit", "exit 3", (), KEPT_OF_PROOF),
    "a proof has changed": ("proofs/Lemmas.antt", "exit 3", (), NOTHING),
}
# What the runner of conversations is made of, and a program whose one reply is what it reads.
RUNNER = ["tests/rehearsals/run", "tests/suites/rehearsals.py", "tests/conversations.py"]
PROGRAM = """\
cat > "$0.read"
printf 'HTTP/1.1 200 OK\\r\\nContent-Length: %d\\r\\n\\r\\n' $(wc -c < "$0.read")
cat "$0.read"
"""
REPLY = "HTTP/1.1 200 OK\r\nContent-Length: {}\r\n\r\n{}"
SCRIPT, WRITTEN = (
    "2025-03-10 480 GET / abc\n",
    "@ 2025-03-10 480\nGET / HTTP/1.1\r\nDesk-Key: abc\r\n\r\n",
)
# Files of conversations: one of bytes and one script go as they should, one gets another reply, and one has lost its requests.
STORIES = {
    "bytes.http": "any\r\n",
    "bytes.out": REPLY.format(5, "any\r\n"),
    "script.requests": SCRIPT,
    "script.out": REPLY.format(len(WRITTEN), WRITTEN),
    "otherwise.requests": SCRIPT,
    "otherwise.out": REPLY.format(len(WRITTEN), WRITTEN).replace("200", "500"),
    "lost.out": REPLY.format(0, ""),
}
TOLD = r"FAILED stories/lost\n .* has 0\nFAILED stories/otherwise\n  reply to message 1 .*500.*200.*\n2 passed, 2 failed\n\Z"


def write(path, text):
    os.makedirs(os.path.dirname(path), exist_ok=True)
    with open(path, "w", encoding="utf-8", newline="") as file:
        file.write(text)


def write_script(path, commands):
    write(path, f"#!/bin/sh\n{commands}\n")
    os.chmod(path, 0o755)


def run(*words, **named):
    return subprocess.run(
        words,
        stdin=subprocess.DEVNULL,
        stdout=subprocess.PIPE,
        stderr=subprocess.STDOUT,
        text=True,
        **named,
    )


def faults_of_gate(room):
    """What the gate ends with otherwise than it must."""
    for case, (commands, last, status) in GATES.items():
        top = f"{room}/{case}"
        for path in ("kit/rt", *SCRIPTS):
            write_script(f"{top}/{path}", commands)
        os.mkdir(f"{top}/bin")
        for name in ("gate", "meter"):
            shutil.copy(f"{TOP}/bin/{name}", f"{top}/bin/{name}")
        shutil.copytree(f"{TOP}/python", f"{top}/python")
        ran = run(f"{top}/bin/gate", env={"PATH": f"{top}/kit:{os.environ['PATH']}"})
        if ran.returncode != status or ran.stdout.rstrip("\n").split("\n")[-1] != last:
            yield f"where {case}, the gate does not end with '{last}' and status {status}, but with {ran.returncode} and:\n{ran.stdout}"
        elif (status != 0) != (" failed; the end of what it said:" in ran.stdout):
            yield f"where {case}, the gate does not show its failures at the end:\n{ran.stdout}"


def faults_without_kit(room):
    """What the gate says otherwise than it must on a machine without the kit."""
    os.makedirs(f"{room}/bin")
    shutil.copy(f"{TOP}/bin/gate", f"{room}/bin/gate")
    shutil.copytree(f"{TOP}/python", f"{room}/python")
    os.mkdir(f"{room}/empty")
    for name in "sh", "python3", "dirname", "readlink":
        os.symlink(shutil.which(name), f"{room}/empty/{name}")
    ran = run(f"{room}/bin/gate", "--install", env={"PATH": f"{room}/empty"})
    if (
        ran.returncode != 2
        or not ran.stdout.startswith("bin/gate: there is no rt of the Rattle kit")
        or ran.stdout.count("\n") != 1
    ):
        yield f"without the kit, the gate ends with {ran.returncode} and:\n{ran.stdout}"


def mutants_known(top):
    """The mutants that the list of a tree spares a gate, or what is wrong with the list."""
    code = (
        f"from desk_tools.build import mutants; "
        f"print(*sorted(mutants.known({top!r}, 'logic')), *mutants.without_edit({top!r}))"
    )
    ran = run(sys.executable, "-B", "-c", code)
    return ran.stdout.strip().split("\n")[-1]


def faults_of_mutants(room):
    """What is known of mutants otherwise than it must, as files change after a gate that saw both refused."""
    write(f"{room}/crates.txt", "# two\npt_low:\npt_high: pt_low csv\n")
    for crate in "pt_low", "pt_high":
        write(f"{room}/crates/{crate}/src/lib.rt", "any\n")
        write(f"{room}/crates/{crate}/must-fail/wrong.edit", f"of {crate}\n")
    os.makedirs(f"{room}/tests")
    code = (
        f"from desk_tools.build import mutants; "
        f"mutants.record({room!r}, 'logic', ['pt_low/wrong', 'pt_high/wrong'])"
    )
    run(sys.executable, "-B", "-c", code)
    kept = f"{room}/tests/mutants-refused"
    with open(kept, encoding="utf-8") as file:
        both = file.read()
    cases = {
        "nothing changed": ("README.md", "other", both, "pt_high/wrong pt_low/wrong"),
        "the higher crate changed": (
            "crates/pt_high/proofs/Lemmas.antt",
            "other",
            both,
            "pt_low/wrong",
        ),
        "the lower crate changed": ("crates/pt_low/specs/Law.antt", "other", both, ""),
        "an edit changed": ("crates/pt_low/must-fail/wrong.edit", "other", both, "pt_high/wrong"),
        "the kit's crates changed": (
            "crates.txt",
            "pt_low:\npt_high: pt_low\n",
            both,
            "pt_low/wrong",
        ),
        "a line has no mutant": (
            "README.md",
            "other",
            both.replace("pt_low/wrong", "pt_low/gone"),
            "pt_high/wrong pt_low/gone",
        ),
        "a line is none": (
            "README.md",
            "other",
            f"{both}pt_low/wrong\n",
            "ValueError: tests/mutants-refused has a line that is none: pt_low/wrong",
        ),
    }
    for case, (path, text, lines, wanted) in cases.items():
        with tempfile.TemporaryDirectory() as copy:
            shutil.copytree(room, copy, dirs_exist_ok=True)
            write(f"{copy}/{path}", text)
            write(f"{copy}/tests/mutants-refused", lines)
            got = mutants_known(copy)
        if got != wanted:
            yield f"where {case}, these mutants are known: {got!r}, and not {wanted!r}"


def metered(room, state, commands, *words):
    """What a run of the meter says, its status, and the lines of its table, where `rt` does this."""
    write_script(f"{room}/kit/rt", commands)
    named = {
        "PATH": f"{room}/kit:{os.environ['PATH']}",
        "PYTHONPATH": f"{TOP}/python",
        "XDG_STATE_HOME": f"{room}/{state}",
    }
    ran = run(sys.executable, f"{room}/meter", "costs", "rt", "ci", *words, cwd=room, env=named)
    with open(f"{room}/costs", encoding="utf-8") as file:
        return ran.stdout, ran.returncode, [" ".join(line.split()) for line in file]


def faults_of_first_run(room):
    """What the meter keeps otherwise than it must of a run on a text that is new; then makes greater what it keeps."""
    names = [f"{room}/state/desk-gate/pt_one.{kind}.json" for kind in ("proof", "mutants")]
    for name in names:
        write(name, json.dumps({"sum": "of another text", "minutes": 9.0}))
    got = metered(room, "state", CHECKS)
    if got != ("", 3, SPENT):
        yield f"where costs of other texts are kept, the meter ends with {got}"
    for name, minutes in zip(names, (2.6, 5.1)):
        with open(name, encoding="utf-8") as file:
            kept = json.load(file)
        if not 0.0 < kept["minutes"] < 1.0:
            yield f"after a run that costs next to nothing, the meter keeps {kept} as {name}"
        write(name, json.dumps({**kept, "minutes": minutes}))


def faults_of_meter(room):
    """What the meter says and keeps otherwise than it must in runs one after the other."""
    with open(f"{TOP}/python/desk_tools/commands/meter.py", encoding="utf-8") as file:
        write(
            f"{room}/meter", file.read().replace("SECONDS_BETWEEN = 0.5", "SECONDS_BETWEEN = 0.1")
        )
    write(f"{room}/crates.txt", "# one\npt_one: pt_base_values\n")
    write(f"{room}/crates/pt_one/proofs/Lemmas.antt", "any\n")
    os.mkdir(f"{room}/kit")
    os.symlink(sys.executable, f"{room}/kit/rattle")
    yield from faults_of_first_run(room)
    for case, (changed, commands, words, table) in RUNS.items():
        if changed:
            write(f"{room}/crates/pt_one/{changed}", "other\n")
        got = metered(room, "state", commands, *words)
        if got != ("", 3, table):
            yield f"where {case}, the meter ends with {got}"
    said, status, table = metered(room, "crates.txt", "echo well; exit 3")
    if not re.fullmatch(r"bin/meter: .+ cannot be kept: .+\nwell\n", said) or (status, table) != (
        3,
        NOTHING,
    ):
        yield f"where nothing can be kept, the meter ends with {(said, status, table)}"


def faults_of_conversations(room):
    """What the runner of conversations says otherwise than it must of some that go as they should and some that do not."""
    for path in RUNNER:
        os.makedirs(f"{room}/{os.path.dirname(path)}", exist_ok=True)
        shutil.copy(f"{TOP}/{path}", f"{room}/{path}")
    shutil.copytree(f"{TOP}/python", f"{room}/python", dirs_exist_ok=True)
    write_script(f"{room}/program", PROGRAM)
    for name, text in STORIES.items():
        write(f"{room}/tests/rehearsals/stories/{name}", text)
    ran = run(f"{room}/tests/rehearsals/run", f"{room}/program")
    if not re.search(TOLD, ran.stdout, re.S):
        yield f"the runner of conversations says:\n{ran.stdout}"


def main():
    with tempfile.TemporaryDirectory(prefix="gate-test-") as room:
        faults = [
            *faults_of_gate(f"{room}/gates"),
            *faults_of_meter(f"{room}/meter"),
            *faults_of_conversations(room),
            *faults_of_mutants(f"{room}/mutants"),
            *faults_without_kit(f"{room}/bare"),
        ]
    for fault in faults:
        print(f"tests/gate_test: {fault}")
    print(f"{len(GATES) + len(RUNS) + 13 - len(faults)} passed, {len(faults)} failed")
    return 1 if faults else 0


if __name__ == "__main__":
    sys.exit(main())
