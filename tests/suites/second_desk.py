"""Holds the plain second desk of tests/second against a program: `second_desk [--seed N] [--calls N] [-v] PROGRAM`.

Random calls of fixed seeds, and fixed ones with their replies written down, are made at `PROGRAM rehearse`; and, where `faketime` is
installed and the program runs under it, at `PROGRAM serve` over a file with `PROGRAM travel` between, whose tables are read when the
program has ended. Every reply is compared to the byte. A difference is told with its seed and, as a script for `bin/rehearsal run abc
FILE`, the shortest list of calls that still differs. --seed N begins with another seed, --calls N makes so many calls a seed; then the
counts of names are told and not asked for. -v prints how often each reply came. The last line is 'N passed, M failed', and the exit
status 1 where something failed.
"""
import argparse
import collections
import concurrent.futures
import subprocess
import sys
import tempfile

from second.replies import Denied, denied
from second.trials import over_file, over_rehearsal, worked
from second.trials.calls import ADMINS_KEY, TRAVEL, line_of, script_of, wanted_replies
from second.trials.chance import OFTEN, OFTEN_IN_THE_OFFICE, NearlyFull, Random
from second.trials.shrinking import shrunk
from serving import difference, tally, told_program

SEED, SEEDS_OF_TRIPS, SEEDS_OF_OFFICES, SEEDS_OF_FILES, CALLS, CALLS_OVER_FILES = (
    37_131,
    10,
    3,
    3,
    420,
    900,
)
ONE_PAUSES_IN, TIMES_EACH_END, AT_ONCE, SECONDS_TO_SHRINK = 3, 5, 2, 60
LEAST_OF_TRIPS, LEAST_OF_OTHERS, LEAST_OF_A_NAME, LEAST_OF_BOOKINGS, LEAST_OF_SHARED = (
    3000,
    600,
    20,
    500,
    20,
)
NAMES = """desk.key desk.number desk.caller desk.unknown desk.over desk.early desk.exists desk.booked desk.full 37.127 37.125 37.125(c)
37.125(e) 37.125(g) 37.125(h) 37.127(e) 37.123(b) 37.123(f) 37.131(a) 37.131(b) 37.131(e) http.head http.length http.json http.field
http.path http.method""".split() + [
    "no vehicle"
]

# What one run found: a fault or None for each comparison, how often each reply came, and how many calls of each kind there were.
Ran = collections.namedtuple("Ran", "faults seen kinds")


def first_difference(calls, wanted, got):
    """The place of the first reply that differs, or None."""
    return next((at for at in range(len(calls)) if wanted[at] != got[at]), None)


def differs(answer, calls):
    return first_difference(calls, wanted_replies(calls)[0], answer(calls)) is not None


def told_difference(answer, calls, wanted, got, seed):
    """None where all replies are as they should be, else the first that is not, and the shortest list of calls that differs."""
    at = first_difference(calls, wanted, got)
    if at is None:
        return None
    shortest = shrunk(calls[: at + 1], lambda some: differs(answer, some), SECONDS_TO_SHRINK)
    told = f"seed {seed}, call {at}: {line_of(calls[at])}\n  wanted {wanted[at]!r}\n  got    {got[at]!r}\n"
    return f"{told}# the shortest list of calls that differs, for `bin/rehearsal run {ADMINS_KEY} FILE`:\n{script_of(shortest)}"


def body_of(reply):
    return reply if isinstance(reply, str) else reply.partition(b"\r\n\r\n")[2].decode()


# Over rehearsals.


def random_rehearsal(program, make, seed, weights, calls):
    trial = make(seed, weights, has_pause=seed % ONE_PAUSES_IN == 0).run(calls)

    def answer(some):
        return over_rehearsal.answered(program, some)

    fault = told_difference(answer, trial.calls, trial.replies, answer(trial.calls), seed)
    return Ran([fault], trial.seen, trial.kinds)


def fixed_rehearsal(program, name):
    listed = getattr(worked, name)()
    got = over_rehearsal.answered(program, listed.calls)
    faults = [
        difference(f"{name}: {line_of(call)}", *pair)
        for call, *pair in zip(listed.calls, listed.wanted, map(body_of, got))
    ]
    return Ran(faults, collections.Counter(), collections.Counter())


def ends_of_rehearsals(program):
    """Heads and lengths that are not taken: each is told, and what follows is not read."""
    faults, seen = [], collections.Counter()
    for message, name in worked.ENDS * TIMES_EACH_END:
        given = b"@ 2025-03-10 480\n" + message + b"@ 2025-03-10 481\n"
        ran = subprocess.run(
            [program, "rehearse", ADMINS_KEY],
            input=given,
            capture_output=True,
            timeout=over_rehearsal.SECONDS,
        )
        faults.append(difference(f"the reply to {message!r}", denied(Denied(name)), ran.stdout))
        seen[name] += 1
    return Ran(faults, seen, collections.Counter())


# Over files.


def over_new_file(program, calls, look=lambda file: []):
    """The reply to each call, and what is found in the file once the program has ended."""
    with tempfile.TemporaryDirectory() as folder:
        with over_file.FiledDesk(program, folder) as desk:
            got = [desk.answer(call) for call in calls]
        return got, [*look(desk.file)]


def told_filed_difference(program, trial, got, seed):
    """As over a rehearsal where the difference shows there without travel tables; else over files."""

    def rehearse(some):
        return over_rehearsal.answered(program, some)

    if first_difference(trial.calls, trial.replies, got) is None:
        return None
    plain = [call for call in trial.calls if call.method != TRAVEL]
    if differs(rehearse, plain):
        return told_difference(rehearse, plain, wanted_replies(plain)[0], rehearse(plain), seed)
    return told_difference(
        lambda some: over_new_file(program, some)[0], trial.calls, trial.replies, got, seed
    )


def random_file(program, seed, calls):
    trial = Random(
        seed, {**OFTEN, "manifest": 2, "table": 0.3}, True, has_pause=seed % ONE_PAUSES_IN == 0
    ).run(calls)
    got, faults = over_new_file(
        program, trial.calls, lambda file: over_file.faults_of_rows(file, trial.desk)
    )
    bookings = (
        sum(trial.seen[f"{kind}, accepted"] for kind in ("book", "change"))
        + trial.seen["no vehicle"]
    )
    seen = collections.Counter({"bookings over tables": bookings, "shared": trial.seen["shared"]})
    faults = [fault and f"seed {seed}: {fault}" for fault in faults]
    return Ran(
        [told_filed_difference(program, trial, got, seed), *faults], seen, collections.Counter()
    )


def fixed_file(program, name):
    listed = getattr(worked, name)()
    got, _ = over_new_file(program, listed.calls)
    faults = [
        difference(f"{name}: {line_of(call)}", *pair)
        for call, *pair in zip(listed.calls, listed.wanted, map(body_of, got))
    ]
    return Ran(faults, collections.Counter(), collections.Counter())


def is_clock_shown(program):
    """Whether the program runs where `faketime` shows another clock."""
    if over_file.library() is None:
        return False
    with tempfile.TemporaryDirectory() as folder:
        try:
            over_file.FiledDesk(program, folder).stop()
        except OSError:
            return False
    return True


# All of it.


def jobs(program, seed, calls, has_files):
    """What is to be run, the longest first: functions and their words."""
    if has_files:
        for at in range(SEEDS_OF_FILES):
            yield random_file, (program, seed + 2000 + at, calls or CALLS_OVER_FILES)
        for name in ("worked_day", "limits_of_tables"):
            yield fixed_file, (program, name)
    for at in range(SEEDS_OF_OFFICES):
        yield random_rehearsal, (
            program,
            NearlyFull,
            seed + 1000 + at,
            OFTEN_IN_THE_OFFICE,
            calls or CALLS,
        )
    for at in range(SEEDS_OF_TRIPS):
        yield random_rehearsal, (program, Random, seed + at, OFTEN, calls or CALLS)
    for name in ("hundred_places", "limits"):
        yield fixed_rehearsal, (program, name)
    yield ends_of_rehearsals, (program,)


def faults_of_counts(seen, kinds, has_files):
    """None for each name that came often enough, else how often it came."""
    wanted = [(seen, name, LEAST_OF_A_NAME) for name in [*NAMES, "again"]]
    wanted += [(kinds, "trips", LEAST_OF_TRIPS), (kinds, "others", LEAST_OF_OTHERS)]
    if has_files:
        wanted += [
            (seen, "bookings over tables", LEAST_OF_BOOKINGS),
            (seen, "shared", LEAST_OF_SHARED),
        ]
    for counted, name, least in wanted:
        yield None if counted[
            name
        ] >= least else f"{name} came {counted[name]} times, and {least} are wanted"


def all_faults(program, asked):
    has_files = is_clock_shown(program)
    if not has_files:
        print(
            "tests/second_desk: skipped: calls over files, since `faketime` is not installed or the program does not run under it"
        )
    seen, kinds = collections.Counter(), collections.Counter()
    with concurrent.futures.ProcessPoolExecutor(AT_ONCE) as pool:
        running = [
            pool.submit(run, *words)
            for run, words in jobs(program, asked.seed, asked.calls, has_files)
        ]
        for it in concurrent.futures.as_completed(running):
            ran = it.result()
            seen, kinds = seen + ran.seen, kinds + ran.kinds
            yield from ran.faults
    if asked.verbose:
        print(
            "".join(f"{count:6} {name}\n" for name, count in sorted({**seen, **kinds}.items())),
            end="",
        )
    if asked.seed == SEED and not asked.calls:
        yield from faults_of_counts(seen, kinds, has_files)


def main(words):
    reader = argparse.ArgumentParser(prog="tests/second_desk", usage=__doc__, add_help=False)
    reader.add_argument("--seed", type=int, default=SEED)
    reader.add_argument("--calls", type=int, default=None)
    reader.add_argument("-v", "--verbose", action="store_true")
    program, flags = told_program(words, __doc__)
    return tally("tests/second_desk", all_faults(program, reader.parse_args(flags)))


if __name__ == "__main__":
    sys.exit(main(sys.argv[1:]))
