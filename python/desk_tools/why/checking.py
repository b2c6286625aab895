"""Whether a log is right: `desk audit` is asked, over the copy that the log is about."""

import shutil
import subprocess
import tempfile
from dataclasses import dataclass
from pathlib import Path

INSTALLED = "desk"
SECONDS = 600.0


class NotRight(Exception):
    """What `desk audit` said in place of yes: one sentence."""


class NoAudit(Exception):
    """Why `desk audit` could not be asked: one sentence."""


@dataclass(frozen=True)
class Question:
    """What was asked when the trip was refused: zone, key, rider, day, wish, from, to, by, attendant, companions."""

    words: tuple[str, ...]
    copy: Path


def program_of(named: str | None) -> str:
    """The desk that is asked: the one that is named, or the installed one."""
    found = shutil.which(named or INSTALLED)
    if found is None:
        raise NoAudit(
            f"{named} is no program that runs"
            if named
            else "no desk is installed here to check the log: name one with --desk PROGRAM"
        )
    return found


def check(text: str, program: str, question: Question) -> None:
    """Returns where `desk audit` says yes to the log, and raises NotRight or NoAudit where it does not."""
    with tempfile.TemporaryDirectory(prefix="desk-why-") as folder:
        log = Path(folder, "refusal.log")
        log.write_text(text, "ascii")
        words = [program, "audit", str(log), str(question.copy), *question.words]
        try:
            ran = subprocess.run(
                words,
                capture_output=True,
                text=True,
                errors="replace",
                timeout=SECONDS,
                check=False,
            )
        except OSError as error:
            raise NoAudit(f"{program}: {error.strerror}") from None
        except subprocess.TimeoutExpired:
            raise NoAudit(f"`desk audit` did not end within {SECONDS:.0f} seconds") from None
    said = " ".join((ran.stdout.strip() or ran.stderr.strip()).split())[:200]
    if (ran.returncode, said) == (0, "yes"):
        return
    if said == "no":
        said = "no: the log does not show that no vehicle had a place, by this copy and this clock"
    raise NotRight(f"`desk audit` says {said or f'nothing, and ends with status {ran.returncode}'}")
