"""The program of the sources as `bench/` counts it: `bench/unproved FILE`.

It is compiled with no proof, at -O2 and without the checks that a trial has, which a proved program does not have either.
The program that `bin/office` compiles has those checks. It takes the Rattle kit and some minutes.
"""
import argparse
import os
import shutil
import sys
import tempfile

import unproved_program
from desk_tools.demo.serving import Trouble


def main(words):
    usage = argparse.ArgumentParser(prog="bench/unproved", description=__doc__.partition("\n\n")[0])
    usage.add_argument("file", metavar="FILE", help="where the program is put")
    given = usage.parse_args(words)
    if not os.path.isdir(os.path.dirname(os.path.abspath(given.file))):
        usage.error(f"there is no folder for {given.file}")
    with tempfile.TemporaryDirectory(prefix="desk-bench-") as room:
        try:
            shutil.copy(unproved_program.desk(room), given.file)
        except Trouble as trouble:
            print(f"bench/unproved: {trouble}", file=sys.stderr)
            return 1
    return 0


if __name__ == "__main__":
    sys.exit(main(sys.argv[1:]))
