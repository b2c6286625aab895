#!/usr/bin/env python3
"""Runs scripts of the gate by themselves: `bin/test [--program PROGRAM] [NAME .. | all]`.

NAME is a script as tests/README.md names it, such as tests/tally or deploy/try-site. Several run side by side as in the
gate, and `all` runs each; without a name the scripts are listed. PROGRAM is a desk of any kind; where it is not given,
it is the one that the gate or bin/desk built. A script that failed beside others runs once more at the end, and that
run counts. The last line is 'N passed, M failed', and the exit status 1 where something failed.
"""

from __future__ import annotations

import os

from desk_tools import ending
from desk_tools.arguments import usage_of
from desk_tools.build import built
from desk_tools.commands import gate
from desk_tools.tree import TOP


def main(arguments: list[str]) -> int:
    parser = usage_of("bin/test", __doc__)
    parser.takes("--program PROGRAM", "the desk to try", default=f"{TOP}/{built.PROGRAM}")
    parser.takes("names NAME", "scripts, or all", nargs="*")
    words = parser.parse_args(arguments)
    lanes = [gate.ALONE, *gate.lanes()]
    scripts = {script.split()[0]: script for lane in lanes for script in lane}
    if not words.names:
        print("\n".join(scripts))
        return 0
    names = [*scripts] if words.names == ["all"] else words.names
    if strange := [it for it in names if it not in scripts]:
        parser.error(f"{', '.join(strange)}: bin/test lists the scripts")
    over = {scripts[it] for it in names} - {*gate.ALONE, *gate.WITH_KIT}
    if over and not os.access(words.program, os.X_OK):
        parser.error(f"{words.program} is no program; bin/desk builds one")
    tally, program = gate.Tally(), os.path.abspath(words.program)
    named = [[script for script in lane if script.split()[0] in names] for lane in lanes]
    gate.run_lanes(tally, [lane for lane in named if lane], program)
    tally.again = tally.failed_names() if len(names) > 1 else []
    for name in tally.again:
        gate.run(tally, name.split(" "))
    tally.show()
    passed, failed = tally.all()
    print(f"{passed} passed, {failed} failed")
    return 1 if failed else 0


if __name__ == "__main__":
    ending.run("bin/test", main)
