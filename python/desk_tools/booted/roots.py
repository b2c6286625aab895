"""Roots of Debian 12, made once from Debian's archive and kept as one archive by the packages that are in them."""

from __future__ import annotations

import contextlib
import hashlib
import os
import shutil
import signal
import subprocess
import time
import uuid
from pathlib import Path

SUITE = "bookworm"
# What a machine has before the desk is installed: systemd, what the package takes, and what the trials use.
PACKAGES = (
    "adduser apt-utils ca-certificates curl dbus debconf dehydrated e2fsprogs faketime gnupg iproute2 libjemalloc2 "
    "libnginx-mod-http-lua logrotate lua-cjson nginx openssh-client openssh-server openssl procps python3 rsync sqlite3 systemd "
    "systemd-sysv systemd-timesyncd tzdata"
).split()
# What a machine of these trials has no use for, or what would wait for a network that never comes.
MASKED = (
    "systemd-networkd.service systemd-networkd.socket systemd-networkd-wait-online.service console-getty.service "
    "systemd-resolved.service apt-daily.timer apt-daily-upgrade.timer e2scrub_all.timer e2scrub_reap.service"
).split()
TOOLS = ("mmdebstrap", "systemd-nspawn", "nsenter", "unshare", "ip", "dpkg-deb")
KEPT = Path(os.environ.get("DESK_BOOTED") or "~/.cache/desk-booted").expanduser()
# A root is made once a day, and on a machine under load that takes many minutes.
SECONDS_TO_MAKE, SECONDS_TO_CLEAN, SECONDS_KEPT = 1_800, 30, 86_400
MAKING = "making-"


class NoRoot(Exception):
    """Why this machine has no root of Debian to boot, in one sentence."""


def missing() -> str | None:
    """What this machine lacks to boot another one, or None."""
    if os.geteuid() != 0:
        return "the rights of root"
    absent = [it for it in TOOLS if not shutil.which(it)]
    if absent:
        return " and ".join(absent)
    ran = subprocess.run(["unshare", "--mount", "--net", "--pid", "--fork", "true"], check=False)
    return "name spaces of its own" if ran.returncode else None


def archive(packages: list[str] | None = None) -> Path:
    """The archive of a root with these packages. Where none of this day is kept it is made, from Debian's archive.

    Where that cannot be reached an older one counts. Raises NoRoot where there is none.
    """
    names = sorted(packages or PACKAGES)
    key = hashlib.sha256(f"{SUITE} {' '.join(names)}".encode()).hexdigest()[:16]
    path = KEPT / f"{SUITE}-{key}.tar"
    if path.exists() and time.time() - path.stat().st_mtime < SECONDS_KEPT:
        return path
    KEPT.mkdir(parents=True, exist_ok=True)
    forget_unfinished()
    try:
        return made_archive(path, names)
    except NoRoot as reason:
        if not path.exists():
            raise
        print(f"tests/booted: {reason}; the root is an older one", flush=True)
        return path


def forget_unfinished() -> None:
    """Removes what trials left that were killed while they made a root."""
    for room in KEPT.glob(f"{MAKING}*"):
        if not Path(f"/proc/{room.name.removeprefix(MAKING)}").exists():
            shutil.rmtree(room, ignore_errors=True)


def made_archive(path: Path, names: list[str]) -> Path:
    """The archive, made now. Raises NoRoot where that fails; then an older one stays."""
    room = KEPT / f"{MAKING}{os.getpid()}"
    shutil.rmtree(room, ignore_errors=True)
    room.mkdir(mode=0o755)
    made = room / path.name
    words = ["mmdebstrap", "--quiet", "--variant=minbase", "--skip=cleanup/apt/lists"]
    words += ["--dpkgopt=force-unsafe-io"]
    words += [f"--include={','.join(names)}", SUITE, str(made)]
    try:
        status, said = run_in(room, words, SECONDS_TO_MAKE)
        if status:
            raise NoRoot(f"mmdebstrap failed: {(said.splitlines() or [str(status)])[-1]}")
        made.rename(path)
    except subprocess.TimeoutExpired:
        raise NoRoot(f"mmdebstrap took longer than {SECONDS_TO_MAKE} seconds") from None
    finally:
        shutil.rmtree(room, ignore_errors=True)
    return path


def run_in(room: Path, words: list[str], seconds: float) -> tuple[int, str]:
    """Runs a command whose temporary files are in the room; its status, and what it said of errors.

    Raises TimeoutExpired once it, and all that it started, has ended.
    """
    with open(room / "said", "w+", encoding="utf-8", errors="replace") as said:
        with subprocess.Popen(
            # (who ends this ends it too, whatever the way)
            ["setpriv", "--pdeathsig", "TERM", *words],
            stdin=subprocess.DEVNULL,
            stdout=said,
            stderr=said,
            env={**os.environ, "TMPDIR": str(room)},
            start_new_session=True,
        ) as process:
            try:
                process.wait(seconds)
            except BaseException:
                end_group(process)
                raise
        said.seek(0)
        return process.returncode, said.read().strip()


def end_group(process: subprocess.Popen[bytes]) -> None:
    """Ends a process and all of its group: first as one who asks, then at once."""
    for number, seconds in (signal.SIGTERM, SECONDS_TO_CLEAN), (signal.SIGKILL, SECONDS_TO_CLEAN):
        with contextlib.suppress(ProcessLookupError):
            os.killpg(process.pid, number)
        with contextlib.suppress(subprocess.TimeoutExpired):
            process.wait(seconds)


def unpacked(folder: Path, packages: list[str] | None = None) -> Path:
    """A new root in this folder, which is made."""
    kept = archive(packages)
    folder.mkdir(parents=True)
    words = ["tar", "--extract", "--numeric-owner", "--xattrs", "--file", str(kept)]
    subprocess.run([*words, "--directory", str(folder)], check=True)
    # (without one each boot is a first boot, which enables every unit)
    (folder / "etc/machine-id").write_text(f"{uuid.uuid4().hex}\n", encoding="ascii")
    units = folder / "etc/systemd/system"
    for name in MASKED:
        (units / name).unlink(missing_ok=True)
        (units / name).symlink_to("/dev/null")
    # (nginx is there and off, as on a machine on which nothing was set up)
    (units / "multi-user.target.wants/nginx.service").unlink(missing_ok=True)
    (folder / "etc/resolv.conf").unlink(missing_ok=True)
    (folder / "etc/resolv.conf").write_text("", encoding="ascii")
    # (it is thrown away, so dpkg need not wait for the disk; and whoever plays a document's commands says yes to apt)
    (folder / "etc/dpkg/dpkg.cfg.d/trial").write_text("force-unsafe-io\n", encoding="ascii")
    (folder / "etc/apt/apt.conf.d/90trial").write_text(
        'APT::Get::Assume-Yes "true";\n', encoding="ascii"
    )
    return folder
