"""The crates of which the program is proved and made, their files, and one digest of them."""
import glob
import hashlib
import os

PARTS = "src", "specs", "proofs"


def files_of(top: str, crate: str) -> list[str]:
    """The files of one crate, or of each by `*`, by their names from the top, in order."""
    found = [
        it for part in PARTS for it in glob.glob(f"{top}/crates/{crate}/{part}/**", recursive=True)
    ]
    return sorted(os.path.relpath(it, top) for it in found if os.path.isfile(it))


def files(top: str) -> list[str]:
    """Their names from the top, in order."""
    return sorted(
        [
            *files_of(top, "*"),
            *(it for it in ("crates.txt", "HANDLES") if os.path.isfile(f"{top}/{it}")),
        ]
    )


def digest_of(path: str) -> str:
    with open(path, "rb") as file:
        return hashlib.sha256(file.read()).hexdigest()


def digest_of_files(top: str, names: list[str]) -> str:
    """The SHA-256 of a list as `sha256sum` prints it: a line a file."""
    return hashlib.sha256(
        "".join(f"{digest_of(f'{top}/{it}')}  {it}\n" for it in names).encode()
    ).hexdigest()


def digest(top: str) -> str:
    """The digest of all sources."""
    return digest_of_files(top, files(top))


def digest_of_crate(top: str, crate: str) -> str:
    """The digest of one crate's own files."""
    return digest_of_files(top, files_of(top, crate))


def crates_of(top: str, name: str = "pt_app") -> tuple[list[str], set[str]]:
    """The crate and those below it, and the crates of the kit that they name."""
    with open(f"{top}/crates.txt", encoding="utf-8") as file:
        lines = [line.partition("#")[0].partition(":") for line in file]
    uses = {left.split()[0]: right.split() for left, _, right in lines if left.strip()}
    own: list[str] = []
    kits: set[str] = set()
    waiting = [name]
    while waiting:
        crate = waiting.pop()
        if crate not in uses:
            kits.add(crate)
        elif crate not in own:
            own.append(crate)
            waiting += uses[crate]
    return own, kits
