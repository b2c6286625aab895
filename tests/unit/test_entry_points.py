"""Commands are entry points of three lines over the one package, and nothing changes the path of its modules."""

import importlib.util
import re
from pathlib import Path

import pytest

TOP = Path(__file__).resolve().parents[2]
HEAD = '#!/bin/sh\nhere=$(dirname "$(readlink -f "$0")")\n'
# Scripts of deploy/ also lie in one folder with python/, where all was copied by hand.
PATHS = {
    "bin": "$here/../python",
    "deploy": "$here/../python:$here/python",
    "packaging": "$here/../python",
}
# These are programs of a shell, and call no module.
OF_SHELL = {"acme-hook", "with-key", "config", "postinst", "postrm", "preinst", "prerm"}


def commands() -> list[Path]:
    found = [it for folder in PATHS for it in sorted((TOP / folder).iterdir())]
    is_run = [it for it in found if it.is_file() and it.stat().st_mode & 0o100]
    return [it for it in is_run if it.name not in OF_SHELL and not it.name.startswith("try")]


@pytest.mark.parametrize("command", commands(), ids=lambda it: f"{it.parent.name}/{it.name}")
def test_a_command_is_three_lines(command: Path) -> None:
    path = re.escape(PATHS[command.parent.name])
    line = rf'PYTHONPATH="{path}" exec python3 -P -B -m (desk_tools[.\w]+) "\$@"\n'
    found = re.fullmatch(re.escape(HEAD) + line, command.read_text(encoding="utf-8"))
    assert found, "three lines, as python/README.md has them"
    assert importlib.util.find_spec(found[1])


def scripts() -> list[Path]:
    """Scripts of tests/ and bench/ that start a module."""
    files = [
        it
        for pattern in ("tests/*", "tests/*/*", "bench/*", "deploy/try-*")
        for it in sorted(TOP.glob(pattern))
    ]
    texts = [it for it in files if it.is_file() and not it.suffix and it.stat().st_mode & 0o100]
    return [
        it for it in texts if re.search("exec (/usr/bin/)?python3", it.read_text(encoding="utf-8"))
    ]


@pytest.mark.parametrize("script", scripts(), ids=lambda it: f"{it.parent.name}/{it.name}")
def test_a_script_is_three_lines_over_a_module(script: Path) -> None:
    line = r'PYTHONPATH="\S+" exec (?:python3|/usr/bin/python3) (?:-P )?-B -m ([\w.]+) "\$@"\n'
    found = re.fullmatch(re.escape(HEAD) + line, script.read_text(encoding="utf-8"))
    assert found, "three lines, as python/README.md has them"
    module = found[1].replace(".", "/")
    assert any((TOP / it / f"{module}.py").is_file() for it in ("python", "tests", "bench"))


def test_no_module_changes_where_modules_are_found() -> None:
    changes = [
        str(it.relative_to(TOP))
        for folder in ("python", "tests", "bench", "deploy")
        for it in (TOP / folder).rglob("*.py")
        if re.search(r"(?m)^\s*sys\.path\b", it.read_text(encoding="utf-8"))
    ]
    assert not changes
