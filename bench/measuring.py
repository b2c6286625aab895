"""What is measured of a program over a file: its clocks, its memory, the machine. For the scripts of bench/."""
import collections
import contextlib
import ctypes.util
import datetime
import os
import re
import subprocess
import sys
import time

from desk_tools.tree import TOP
from serving import ZONE

EMPTY_DAY = "2099-12-31"

# Seconds by the clock on the wall, and those in which a processor worked for the program.
Cost = collections.namedtuple("Cost", "wall processor")


def processor_of(process):
    """Seconds in which a processor worked for the process of this number: the clock that clock_getcpuclockid(3) gives."""
    return time.clock_gettime(~process << 3 | 2)


def cost_of(task, process):
    """What a task costs, if the process of this number does the work of it; and what the task gives."""
    wall, processor = time.monotonic(), processor_of(process)
    told = task()
    return Cost(time.monotonic() - wall, processor_of(process) - processor), told


def least(costs):
    """The least of each clock. What else runs on the machine only ever adds to one."""
    return Cost(*map(min, zip(*costs)))


def opened(program, file, key):
    """What an opening costs, and its megabytes at most: the program prints the trips of a day on which there are none."""
    began = time.monotonic()
    child = subprocess.Popen([program, "trips", file, ZONE, key, EMPTY_DAY], stdout=subprocess.DEVNULL)
    _, status, usage = os.wait4(child.pid, 0)
    if status:
        sys.exit(f"the program ended with {os.waitstatus_to_exitcode(status)} where it should open {file}")
    return Cost(time.monotonic() - began, usage.ru_utime + usage.ru_stime), usage.ru_maxrss / 1_000


def held(process, most=False):
    """Megabytes that a process has in memory now, or had at most."""
    line_of = "VmHWM:" if most else "VmRSS:"
    with open(f"/proc/{process.pid}/status", encoding="ascii") as status:
        return next(int(line.split()[1]) for line in status if line.startswith(line_of)) / 1_000


def has_deployed_allocator():
    return ctypes.util.find_library("jemalloc") is not None


@contextlib.contextmanager
def as_deployed():
    """In here the programs are started with the allocator that deploy/desk@.service names."""
    with open(f"{TOP}/deploy/desk@.service", encoding="utf-8") as unit:
        words = re.search(r"(?m)^Environment=(LD_PRELOAD=.*)$", unit.read())[1].split()
    os.environ.update(word.split("=", 1) for word in words)
    try:
        yield
    finally:
        for word in words:
            del os.environ[word.split("=")[0]]


def machine():
    """A line about the machine, and how much works on it at this moment."""
    with open("/proc/cpuinfo", encoding="utf-8") as text:
        model = re.search(r"(?m)^model name\s*: (.*)$", text.read())
    load = "load " + " ".join(f"{it:.1f}" for it in os.getloadavg())
    return f"{os.cpu_count()} processors, {model[1] if model else 'of an unknown kind'}, {load}, {datetime.date.today()}"
