"""Files that are made or replaced, so that all can be put back; and commands, of which a failure says the cause."""
import os
import re
import shutil
import subprocess
import tempfile

from desk_tools.machine.settings import Failure

# What nginx says of a file that it refuses, with the moment and its process once its log is open.
EMERGENCY = re.compile(r"(?:nginx:|[\d/]+ [\d:]+) \[emerg\] (?:\d+#\d+: )?(.*)")


class Changes:
    def __init__(self) -> None:
        self.before: list[tuple[str, str | None]] = []
        self.folder = tempfile.mkdtemp(prefix="desk-setup-")

    def note(self, path: str) -> None:
        """Notes a file as it is, before it is changed."""
        copy = f"{self.folder}/{len(self.before)}"
        if os.path.lexists(path):
            shutil.copy2(path, copy)
        self.before.append((path, copy if os.path.lexists(path) else None))

    def write(self, path: str, text: str, mode: int = 0o644) -> None:
        self.note(path)
        os.makedirs(os.path.dirname(path), exist_ok=True)
        with open(
            os.open(f"{path}.new", os.O_WRONLY | os.O_CREAT | os.O_TRUNC, mode),
            "w",
            encoding="utf-8",
        ) as file:
            file.write(text)
        os.replace(f"{path}.new", path)

    def undo(self) -> None:
        for path, copy in reversed(self.before):
            if copy:
                shutil.copy2(copy, path)
            elif os.path.lexists(path):
                os.remove(path)

    def close(self) -> None:
        shutil.rmtree(self.folder, ignore_errors=True)


def run(*words: object, env: dict[str, str] | None = None) -> str:
    """What a command prints, or a failure that has the line of what it says that names the cause."""
    ran = subprocess.run(
        [str(it) for it in words],
        capture_output=True,
        text=True,
        stdin=subprocess.DEVNULL,
        check=False,
        env=env,
    )
    if ran.returncode:
        said = (ran.stderr or ran.stdout).strip().splitlines()
        raise Failure(
            f"{os.path.basename(str(words[0]))} failed: {cause_in(said) or f'status {ran.returncode}'}"
        )
    return ran.stdout


def cause_in(said: list[str]) -> str:
    """The line that names the cause. nginx ends with one that says only that its test failed."""
    named = [found[1] for it in said if (found := EMERGENCY.fullmatch(it))]
    return (named or said or [""])[-1]
