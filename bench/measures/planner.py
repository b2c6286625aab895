"""Measures `best` and `settle` beside a planner in plain Rust on the same instance files, and prints the ratios.

rustc builds the plain planner. The desk's is proved and built by bench/run; with --unproved, or where the crates of this
tree are not built, it is compiled with no proof, and the first line says so. A figure is of the machine it was taken on;
compare figures of one machine."""
import argparse
import glob
import os
import re
import shutil
import statistics
import subprocess
import sys
import tempfile

import unproved_program

from desk_tools.tree import TOP

SIZES = ["1x20", "10x30", "50x58", "50x98"]


def peer_figures(folder, files):
    """Microseconds by instance file: of the fast body where a place is possible and where none is, and of the plain settle."""
    with tempfile.TemporaryDirectory() as room:
        program = os.path.join(room, "planner")
        source = os.path.join(folder, "src", "main.rs")
        subprocess.run(["rustc", "--edition", "2021", "-C", "opt-level=3", "-A", "warnings", "-o", program, source], check=True)
        told = subprocess.run([program, "time", *files], check=True, stdout=subprocess.PIPE, text=True).stdout
    figures = {}
    for name, kind, fast in re.findall(r"^planner \| (\S+), (possible|no vehicle) \(\d+\) \| [^|]* \| ([\d.]+),", told, re.M):
        figures[name, "possible" if kind == "possible" else "none"] = float(fast)
    for name, plain in re.findall(r"^planner \| one list of (\S+) \| plain settle ([\d.]+) us", told, re.M):
        figures[name, "settle"] = float(plain)
    return figures


def is_built():
    """Whether the crate of the planner was built, so that bench/run proves only its program."""
    return os.path.isfile(os.path.join(TOP, "crates", "pt_insertion_search", "out", "rlib", "stamp"))


def printed(files, is_proved):
    """What the desk's own planner prints over these files."""
    if is_proved:
        words = [os.path.join(TOP, "bench", "run"), "planner", *files]
        return subprocess.run(words, check=True, stdout=subprocess.PIPE, text=True).stdout
    print("The desk's planner is unproved here: compiled from what `rt try` makes, without its checks.", flush=True)
    with tempfile.TemporaryDirectory(prefix="desk-planner-") as room:
        program = unproved_program.compiled(os.path.join(TOP, "bench", "planner.program"), room)
        return subprocess.run([program, *files], check=True, stdout=subprocess.PIPE, text=True).stdout


def own_figures(files, is_proved):
    """Microseconds by instance file, of the desk's own planner, which checks each answer with the file's."""
    figures = {}
    lines = re.findall(r"^(\S+) possible (\d+) none (\d+) settle (\d+)$", printed(files, is_proved), re.M)
    for path, possible, none, settle in lines:
        name = os.path.basename(path).removesuffix(".txt")
        figures[name, "possible"] = int(possible) / 1000
        figures[name, "none"] = int(none) / 1000
        figures[name, "settle"] = int(settle) / 1000
    return figures


def print_ratios(own, peer):
    words = {
        "possible": "best, a place possible",
        "none": "best, none possible",
        "settle": "settle, a route of the vehicles",
    }
    for size in SIZES:
        for kind, word in words.items():
            keys = [key for key in own if key[0].endswith(f"-{size}") and key[1] == kind and key in peer]
            if not keys:
                continue
            ratios = {key: own[key] / peer[key] for key in keys}
            each = ", ".join(f"{key[0].split('-')[0]} {own[key]:.1f} us, {ratios[key]:.1f} times" for key in keys)
            ratio = statistics.median(ratios.values())
            body = "the plain settle" if kind == "settle" else "the fast planner"
            print(f"{size}, {word}: {ratio:.1f} times {body} in plain Rust ({each})")


def words_of(given):
    reader = argparse.ArgumentParser(prog="bench/planner", description=__doc__.split("\n")[0])
    reader.add_argument("--unproved", action="store_true", help="compile the desk's planner with no proof")
    reader.add_argument("folder", metavar="FOLDER", help="the plain planner's, with src/main.rs and instances/*.txt")
    return reader.parse_args(given)


def main(given):
    asked = words_of(given)
    folder = os.path.realpath(asked.folder)
    files = sorted(glob.glob(os.path.join(folder, "instances", "*.txt")))
    if not files:
        sys.exit(f"bench/planner: no instance files below {folder}")
    for tool in ("rustc", "rt"):
        if not shutil.which(tool):
            sys.exit(f"bench/planner: {tool} is not there")
    try:
        own = own_figures(files, is_built() and not asked.unproved)
        print_ratios(own, peer_figures(folder, files))
    except unproved_program.unproved.Trouble as trouble:
        sys.exit(f"bench/planner: {trouble}")
    except subprocess.CalledProcessError as failed:
        sys.exit(f"bench/planner: {failed.cmd[0]} ended with status {failed.returncode}")


main(sys.argv[1:])
