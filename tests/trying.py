"""What trials take of the machine beside the program: rights, another user, disks in memory, networks of their own.

Each is looked for before it is used, since a container may refuse any of them. Where one is missing its name is
returned, for the one line that says what was left out.
"""
import contextlib
import os
import resource
import shutil
import subprocess
import tempfile
import time

from serving import write

# The user `nobody` of Debian, whom no trial looks up by name.
NOBODY = 65534
AS_NOBODY = ("setpriv", f"--reuid={NOBODY}", f"--regid={NOBODY}", "--clear-groups")
SECONDS = 60
# The parts of nftables that deploy/desk.nft takes.
RULES = """table inet desk_trial {
    set lines { type ipv4_addr; size 65535; flags dynamic; }
    chain input {
        type filter hook input priority filter - 5; policy accept;
        tcp dport 443 ct state new add @lines { ip saddr ct count over 200 } reject with tcp reset
    }
}
"""
HEADERS = "#include <dlfcn.h>\n#include <stdio.h>\nint main(void) { return 0; }\n"


def private_file(path: str, text: str, mode: int = 0o600) -> str:
    """Gives a file this text, for its owner alone where nothing else is said. The path."""
    return write(path, text, mode)


def works(*words: str, text: str | None = None) -> bool:
    """Whether a command is there and ends with status 0."""
    try:
        told = subprocess.run(
            words, input=text or "", text=True, capture_output=True, timeout=SECONDS
        )
    except OSError:
        return False
    return told.returncode == 0


def missing_user(folder: str) -> str | None:
    """Another user, who owns a folder in the given one and enters it."""
    if os.geteuid() != 0:
        return "root"
    with tempfile.TemporaryDirectory(dir=folder) as owned:
        try:
            os.chown(owned, NOBODY, NOBODY)
        except OSError:
            return "the right to give files to another user"
        is_entered = works(*AS_NOBODY, "test", "-w", owned)
    return None if is_entered else f"another user who may enter {folder}"


def missing_sight() -> str | None:
    """A look at the files that a process of another user has open, which root has without a container's limits. (deploy/try asks.)"""
    process = subprocess.Popen([*AS_NOBODY, "sleep", str(SECONDS)], stdin=subprocess.DEVNULL)
    try:
        for _ in range(100):
            if os.stat(f"/proc/{process.pid}").st_uid == NOBODY:
                break
            time.sleep(0.05)
        os.readlink(f"/proc/{process.pid}/fd/0")
        return None
    except OSError:
        return "a look at other users' processes"
    finally:
        process.kill()
        process.wait()


def missing_disk() -> str | None:
    """A small disk in memory, in a name space of its own."""
    if os.geteuid() != 0:
        return "root"
    with tempfile.TemporaryDirectory() as folder:
        script = 'mount -t tmpfs -o size=100k none "$0" && mount -o remount,ro "$0"'
        is_mounted = works("unshare", "--mount", "sh", "-c", script, folder)
    return None if is_mounted else "the right to mount a disk in memory"


def missing_firewall() -> str | None:
    """nftables in a network of its own, with both kinds of addresses."""
    if os.geteuid() != 0:
        return "root"
    missing = [it for it in ("unshare", "ip", "nft") if not shutil.which(it)]
    if missing:
        return " and ".join(missing)
    if not works("unshare", "--net", "ip", "link", "set", "lo", "up"):
        return "a network of its own"
    if not works("unshare", "--net", "nft", "-f", "-", text=RULES):
        return "nftables that count connections"
    if not works(
        "unshare",
        "--net",
        "sh",
        "-c",
        "ip link set lo up && ip -6 address show dev lo | grep -q ::1",
    ):
        return "IPv6"
    return None


def missing_compiler() -> str | None:
    """gcc, and the headers of the C library."""
    with tempfile.TemporaryDirectory() as folder:
        is_there = works("gcc", "-x", "c", "-o", f"{folder}/program", "-", text=HEADERS)
    return None if is_there else "gcc and the headers of the C library"


def missing_faketime() -> str | None:
    """A clock that faketime sets."""
    words = ("faketime", "-f", "@2030-06-01 12:00:00", "date", "+%Y")
    told = (
        subprocess.run(words, capture_output=True, text=True) if shutil.which("faketime") else None
    )
    return None if told and told.stdout == "2030\n" else "faketime"


def missing_files(count: int) -> str | None:
    """So many files open at once. The limit of this process, and of what it starts, is raised as far as it goes."""
    soft, hard = resource.getrlimit(resource.RLIMIT_NOFILE)
    wanted = count if hard == resource.RLIM_INFINITY else min(count, hard)
    if soft != resource.RLIM_INFINITY and soft < wanted:
        with contextlib.suppress(OSError, ValueError):
            resource.setrlimit(resource.RLIMIT_NOFILE, (wanted, hard))
    soft = resource.getrlimit(resource.RLIMIT_NOFILE)[0]
    return None if soft == resource.RLIM_INFINITY or soft >= count else f"{count} open files"


def skipped(script: str, what: str, missing: str | None) -> bool:
    """Says what is left out, where something is missing for it; whether that is so."""
    if missing:
        print(f"deploy/{script}: skipped: {what}, for lack of {missing}", flush=True)
    return bool(missing)
