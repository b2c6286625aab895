"""How a command ends whose output finds no room: one sentence that names the output, and status 1."""

import os
import subprocess
import sys
from pathlib import Path

import pytest

TOP = Path(__file__).resolve().parents[2]
SHORT, LONG = "print('x')", "print('x' * 100_000)"
TASK = """
import sys
from desk_tools import ending
def task(words):
    {work}
ending.run("bin/any", task)
"""


def _ran(
    words: list[str], more: dict[str, str], stdout: int | None = subprocess.PIPE
) -> subprocess.CompletedProcess[bytes]:
    named = {key: it for key, it in os.environ.items() if not key.startswith("PYTHON")}
    return subprocess.run(
        words,
        env={**named, "PYTHONPATH": str(TOP / "python"), **more},
        stdout=stdout,
        stderr=subprocess.PIPE,
        check=False,
    )


def _said(words: list[str], more: dict[str, str]) -> tuple[int, str]:
    named = {key: it for key, it in os.environ.items() if not key.startswith("PYTHON")}
    with open("/dev/full", "wb") as full:
        done = subprocess.run(
            words,
            env={**named, "PYTHONPATH": str(TOP / "python"), **more},
            stdout=full,
            stderr=subprocess.PIPE,
            text=True,
            check=False,
        )
    return done.returncode, done.stderr


@pytest.mark.parametrize("more", [{}, {"PYTHONUNBUFFERED": "1"}])
@pytest.mark.parametrize("work", [SHORT, LONG])
def test_a_full_disk_is_one_sentence(work: str, more: dict[str, str]) -> None:
    said = _said([sys.executable, "-B", "-c", TASK.format(work=work)], more)
    assert said == (1, "bin/any: the output: No space left on device\n")


@pytest.mark.parametrize("more", [{}, {"PYTHONUNBUFFERED": "1"}])
def test_a_table_for_a_full_disk_is_one_sentence(tmp_path: Path, more: dict[str, str]) -> None:
    (tmp_path / "log").write_text("")
    said = _said([str(TOP / "bin/tally"), "stops", str(tmp_path / "log")], more)
    assert said == (1, "bin/tally: the output: No space left on device\n")


ASCII = {"PYTHONIOENCODING": "ascii", "PYTHONUTF8": "0", "PYTHONCOERCECLOCALE": "0", "LC_ALL": "C"}


@pytest.mark.parametrize("more", [ASCII, {"PYTHONIOENCODING": "latin-1"}])
def test_a_file_gets_utf_8_in_any_locale(more: dict[str, str]) -> None:
    work = "print('Elm \\u2013 Main')"
    done = _ran([sys.executable, "-B", "-c", TASK.format(work=work)], more)
    assert (done.returncode, done.stdout, done.stderr) == (0, "Elm \u2013 Main\n".encode(), b"")


def test_a_closed_output_is_one_sentence_before_anything_is_done(tmp_path: Path) -> None:
    work = f"open({str(tmp_path / 'done')!r}, 'w').close()"
    closed = ["sh", "-c", '"$0" "$@" >&-']
    done = _ran([*closed, sys.executable, "-B", "-c", TASK.format(work=work)], {}, None)
    said = b"bin/any: standard output is closed, so nothing was done\n"
    assert (done.returncode, done.stderr) == (1, said)
    assert not (tmp_path / "done").exists()


def test_json_that_is_nested_deeply_is_one_sentence() -> None:
    work = "import json; json.loads('[' * 100_000)"
    done = _ran([sys.executable, "-B", "-c", TASK.format(work=work)], {})
    assert (done.returncode, done.stderr.count(b"\n")) == (2, 1)
    assert done.stderr.startswith(b"bin/any: the JSON has lists or objects in one another")


def _places(folder: Path, count: int) -> list[str]:
    rows = "".join(f"{it},Elm and {it:0400},0,0\n" for it in range(1, count + 1))
    (folder / "places.csv").write_text(f"number,name,x,y\n{rows}", encoding="utf-8")
    words = ["places", str(folder / "places.csv"), "--plan", "--folder", str(folder)]
    return [str(TOP / "bin/move-in"), *words]


def test_a_full_disk_is_blamed_on_no_folder(tmp_path: Path) -> None:
    said = "bin/move-in: the output: No space left on device\n"
    assert _said(_places(tmp_path, 100), {}) == (1, said)


def test_a_reader_who_goes_away_is_no_fault_of_the_folder(tmp_path: Path) -> None:
    reader, writer = os.pipe()
    os.close(reader)
    done = _ran(_places(tmp_path, 100), {}, writer)
    os.close(writer)
    assert (done.returncode, done.stderr) == (0, b"")


@pytest.mark.parametrize(
    "content", ["", "[]", "{}", "[" * 100_000], ids=["empty", "list", "object", "deep"]
)
def test_a_look_at_a_file_without_facts_is_one_sentence(tmp_path: Path, content: str) -> None:
    path = tmp_path / "facts"
    path.write_text(content)
    done = _ran([str(TOP / "deploy/watch"), "--look", str(path)], {"SETTINGS": str(tmp_path)})
    said = f"deploy/watch: {path} has no facts that deploy/watch --facts wrote\n"
    assert (done.returncode, done.stderr.decode()) == (1, said)


def test_today_says_that_there_is_no_log(tmp_path: Path) -> None:
    words = [str(tmp_path / "log"), str(tmp_path / "today.json"), "--once"]
    done = _ran([str(TOP / "deploy/today"), *words], {})
    said = f"deploy/today: {tmp_path / 'log'}: No such file or directory\n"
    assert (done.returncode, done.stderr.decode()) == (1, said)


@pytest.mark.parametrize("raised", ["KeyboardInterrupt", "ValueError"])
def test_ctrl_c_ends_a_command_that_still_loads(tmp_path: Path, raised: str) -> None:
    """A command's first module that Ctrl+C meets ends it quietly; what else is raised there is shown."""
    (tmp_path / "datetime.py").write_text(f"raise {raised}\n")
    path = f"{tmp_path}{os.pathsep}{TOP / 'python'}"
    words = [sys.executable, "-P", "-B", "-m", "desk_tools.commands.tally"]
    done = _ran(words, {"PYTHONPATH": path})
    assert (done.returncode, b"Traceback" in done.stderr) == (
        (130, False) if raised == "KeyboardInterrupt" else (1, True)
    )
