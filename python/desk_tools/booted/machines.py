"""Machines: roots of Debian that run under systemd-nspawn, each with its own network and control group.

    with Machine(root, "one") as one, Machine(other, "two") as two:
        link(one, two)                       # 10.85.0.1 and 10.85.0.2, named one and two in /etc/hosts
        one.run("systemctl start desk@main")      # raises, where it fails
        two.wait_for("curl -sf http://one/")
"""

from __future__ import annotations

import contextlib
import os
import shlex
import signal
import subprocess
import time
from dataclasses import dataclass
from pathlib import Path
from types import TracebackType

SECONDS_TO_BOOT = 60
SECONDS_TO_WAIT, SECONDS_TO_END = 30, 10
GROUPS, GROUP = Path("/sys/fs/cgroup"), "desk-booted-"


class NoBoot(Exception):
    """Why a machine does not come up, in one sentence."""


@dataclass(frozen=True)
class Ran:
    """How a command ended in a machine."""

    status: int
    output: str

    @property
    def is_well(self) -> bool:
        """Whether the status is 0."""
        return self.status == 0

    @property
    def last_line(self) -> str:
        """The last line of what it said, or its status."""
        lines = self.output.strip().splitlines()
        return lines[-1] if lines else f"status {self.status}"


def control_groups(name: str) -> list[Path]:
    """Control groups for a machine alone, in each tree that systemd reads. Two systemds in one would end each other."""
    found = []
    for line in Path("/proc/self/cgroup").read_text(encoding="ascii").splitlines():
        number, kind, path = line.split(":", 2)
        if kind not in ("", "name=systemd"):
            continue
        tree = GROUPS / "systemd" if kind else GROUPS / "unified"
        if number == "0" and not tree.exists():
            tree = GROUPS
        if tree.exists():
            found.append(tree / path.lstrip("/") / f"{GROUP}{name}-{os.getpid()}")
    return found


def remove_group(group: Path) -> None:
    """Ends what still runs in a control group of a trial, and removes it with those in it."""
    end = time.monotonic() + SECONDS_TO_END
    while (left := processes_in(group)) and time.monotonic() < end:
        for number in left:
            with contextlib.suppress(ProcessLookupError):
                os.kill(number, signal.SIGKILL)
        time.sleep(0.05)
    for inner in sorted(group.rglob("*"), reverse=True):
        if inner.is_dir():
            with contextlib.suppress(OSError):
                inner.rmdir()
    with contextlib.suppress(OSError):
        group.rmdir()


def processes_in(group: Path) -> list[int]:
    """The processes of a control group and of those in it."""
    found: list[int] = []
    for path in group.rglob("cgroup.procs"):
        # (a group may go meanwhile, and one that holds groups lists none)
        with contextlib.suppress(OSError):
            found += [int(it) for it in path.read_text(encoding="ascii").split() if it != "0"]
    return found


def forget_groups() -> None:
    """Removes the control groups of trials that were killed."""
    for place in control_groups("any"):
        for group in place.parent.glob(f"{GROUP}*"):
            if not Path(f"/proc/{group.name.rpartition('-')[2]}").exists():
                remove_group(group)


class Machine:
    """A root that is booted while this is used."""

    def __init__(self, root: Path, name: str) -> None:
        self.root, self.name = root, name
        self.process: subprocess.Popen[bytes] | None = None
        self.systemd = 0
        self.groups = control_groups(name)

    def __enter__(self) -> Machine:
        self.boot()
        return self

    def __exit__(
        self,
        kind: type[BaseException] | None,
        error: BaseException | None,
        trace: TracebackType | None,
    ) -> None:
        self.halt()

    def boot(self) -> None:
        """Boots the root, and waits until its systemd says that it runs. Raises NoBoot."""
        words = ["systemd-nspawn", "--quiet", "--keep-unit", "--register=no", "--private-network"]
        words += [f"--directory={self.root}", f"--machine={self.name}", "--boot"]
        words += ["--link-journal=no", "--console=passive", "--resolv-conf=off", "--timezone=off"]
        for group in self.groups:
            group.mkdir(parents=True, exist_ok=True)
        with open(f"{self.root}.boot.log", "wb") as log:
            self.process = subprocess.Popen(
                [*self.in_groups(), *words],
                stdin=subprocess.DEVNULL,
                stdout=log,
                stderr=subprocess.STDOUT,
                start_new_session=True,
            )
        end = time.monotonic() + SECONDS_TO_BOOT
        while time.monotonic() < end and self.process.poll() is None:
            self.systemd = self.child() or 0
            if self.systemd:
                said = self.run("systemctl is-system-running", check=False, enough=False)
                if said.output.strip() in ("running", "degraded"):
                    self.run("ip link set lo up", check=False)
                    return
            time.sleep(0.2)
        self.halt()
        raise NoBoot(f"{self.name} does not boot: see {self.root}.boot.log")

    def in_groups(self) -> list[str]:
        """A command that enters the machine's control groups, and then becomes what follows it."""
        enter = "".join(f"echo $$ >{shlex.quote(str(it / 'cgroup.procs'))}; " for it in self.groups)
        return ["setpriv", "--pdeathsig", "KILL", "sh", "-c", f'{enter}exec "$@"', "sh"]

    def child(self) -> int | None:
        """The process number of the machine's systemd."""
        assert self.process
        path = Path(f"/proc/{self.process.pid}/task/{self.process.pid}/children")
        with contextlib.suppress(OSError):
            found = path.read_text(encoding="ascii").split()
            return int(found[0]) if found else None
        return None

    def entering(self) -> list[str]:
        """The words that bring a command into the machine."""
        return ["nsenter", "-t", str(self.systemd), "-m", "-u", "-i", "-n", "-p", "-r", "-w"]

    def run(
        self, command: str, *, check: bool = True, stdin: str = "", enough: float | bool = 180
    ) -> Ran:
        """Runs a line of shell in the machine as root. With `check` a status other than 0 raises.

        `enough` is the number of seconds after which it is ended.
        """
        environment = [
            "env",
            "-i",
            "PATH=/usr/local/sbin:/usr/local/bin:/usr/sbin:/usr/bin:/sbin:/bin",
        ]
        environment += [
            "LC_ALL=C.UTF-8",
            "DEBIAN_FRONTEND=noninteractive",
            "HOME=/root",
            "TERM=dumb",
        ]
        words = [*self.in_groups(), *self.entering(), *environment, "sh", "-c", command]
        begun = time.monotonic()
        try:
            ran = subprocess.run(
                words,
                input=stdin,
                text=True,
                stdout=subprocess.PIPE,
                stderr=subprocess.STDOUT,
                check=False,
                timeout=10 if enough is False else float(enough),
            )
        except subprocess.TimeoutExpired:
            return Ran(124, f"`{command}` took longer than it may")
        if os.environ.get("SLOW_COMMANDS") and time.monotonic() - begun > 2:
            print(f"{time.monotonic() - begun:5.1f} s {command[:100]}", flush=True)
        if check and ran.returncode:
            raise RuntimeError(
                f"{self.name}: `{command}`: {ran.returncode}: {ran.stdout.strip()[-400:]}"
            )
        return Ran(ran.returncode, ran.stdout)

    def wait_for(self, command: str, seconds: float = SECONDS_TO_WAIT) -> bool:
        """Whether the command succeeds within so many seconds. It is tried again each fifth of a second."""
        end = time.monotonic() + seconds
        while True:
            if self.run(command, check=False).is_well:
                return True
            if time.monotonic() >= end:
                return False
            time.sleep(0.2)

    def halt(self) -> None:
        """Ends the machine: by its own poweroff, or where that takes long, at once."""
        if self.process and self.process.poll() is None:
            if self.systemd:
                with contextlib.suppress(ProcessLookupError):
                    # The real-time signal that systemd takes as `poweroff`.
                    os.kill(self.systemd, signal.SIGRTMIN + 4)
            try:
                self.process.wait(SECONDS_TO_WAIT)
            except subprocess.TimeoutExpired:
                self.process.kill()
                self.process.wait()
        self.process, self.systemd = None, 0
        for group in self.groups:
            remove_group(group)

    def kill(self) -> None:
        """Ends the machine as a cut of its power does."""
        if self.process and self.process.poll() is None:
            # (systemd-nspawn that is killed leaves what runs in the machine behind)
            if self.systemd:
                os.kill(self.systemd, signal.SIGKILL)
            self.process.kill()
            self.process.wait()
        self.halt()


def link(one: Machine, other: Machine, also: str = "", network: str = "10.85.0") -> None:
    """Ties two machines by a line of their own. Each knows both by name: NETWORK.1 and NETWORK.2, which `also` names too.

    Their names in documents are those with .example.org.
    """
    ends = [f"dk{os.getpid() % 100_000}{it}" for it in "ab"]
    words = ["ip", "link", "add", ends[0], "type", "veth", "peer", "name", ends[1]]
    subprocess.run(words, check=True)
    for at, (machine, end) in enumerate(zip((one, other), ends, strict=True), start=1):
        subprocess.run(["ip", "link", "set", end, "netns", str(machine.systemd)], check=True)
        machine.run(f"ip link set {end} name link0 && ip address add {network}.{at}/24 dev link0")
        machine.run("ip link set link0 up")
    names = f"{network}.1 {one.name} {one.name}.example.org\n"
    names += f"{network}.2 {other.name} {other.name}.example.org {also}\n"
    for machine in (one, other):
        machine.run("cat >>/etc/hosts", stdin=names)


def cut(one: Machine, is_cut: bool = True) -> None:
    """Breaks the line of a machine, or mends it."""
    one.run(f"ip link set link0 {'down' if is_cut else 'up'}")
