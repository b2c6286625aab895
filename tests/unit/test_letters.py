"""Letters: what they say in both languages, and the forms in which people ask for them."""

import contextlib
import http.server
import json
import os
import shutil
import subprocess
import threading
import wave
from collections.abc import Iterator
from pathlib import Path
from typing import Any

import pytest

from desk_tools.letters import asking, composing, forms, sentences
from desk_tools.letters.composing import About, Letter, Sender
from desk_tools.letters.forms import NoForm

TOP = Path(__file__).resolve().parents[2]
TEXTS = TOP / "tests/letters"
CASES: dict[str, Any] = json.loads((TEXTS / "cases.json").read_text("utf-8"))
BOTH = [(name, own) for name in CASES["riders"] for own in sentences.LANGUAGES]


def text_of(name: str, own: str) -> str:
    """The plain text of a letter of the cases."""
    case, agency = CASES["riders"][name], CASES["agency"]
    letters = [composing.letter_of(int(entry), it) for entry, it in case["letters"].items()]
    made = Letter(-1, "", {"DATE": case.get("date", ""), "DECISION": case.get("made", "")})
    letter = next((it for it in letters if it.entry == case.get("print")), made)
    sender = Sender(
        agency["name"], agency["telephone"], agency["address"], *agency["appeal"].values()
    )
    about = About(
        own, 1001, sender, letters, case["name"], case.get("place", ""), case.get("more", {})
    )
    return composing.plain_text(composing.blocks_of(letter, about))


@pytest.mark.parametrize("name, own", BOTH)
def test_each_letter_says_what_the_pages_say(name: str, own: str) -> None:
    assert text_of(name, own) == (TEXTS / f"{name}.{own}.txt").read_text("utf-8")


def test_the_pages_have_the_table_of_today() -> None:
    assert sentences.SCRIPT.read_text("utf-8") == sentences.script()


def test_a_letter_read_from_the_desk_goes_to_the_street_of_the_home(tmp_path: Path) -> None:
    table = tmp_path / "addresses.csv"
    table.write_text("id,street,place,rider\n1,10 Elm St,62,101\n2,12 Elm St,62,102\n")
    rider, places = asking.Rider("Ana", "es", "62"), {"62": "Area 62"}

    def place_of(number: int, addresses: Path | None) -> str:
        asked = asking.Asked("", "", number, None, Path("agency.json"), addresses=addresses)
        return asking.mailing_of(asked, rider, places)

    assert place_of(101, table) == "10 Elm St"
    assert (place_of(103, table), place_of(101, None)) == ("", "")
    table.write_text("street\n10 Elm St\n")
    with pytest.raises(NoForm, match="has no column id"):
        place_of(101, table)


# The forms.


def test_a_full_disk_leaves_nothing_beside_the_file(tmp_path: Path) -> None:
    """Where there is no room (a limit of the process stands for it), the old file stays as it is, alone."""
    (tmp_path / "saved.txt").write_text("A letter.\n\n" * 400)
    output = tmp_path / "letter.html"
    output.write_text("old")
    words = f"ulimit -f 1; exec {TOP}/bin/letters large {output} --text {tmp_path}/saved.txt"
    ran = subprocess.run(["/bin/sh", "-c", words], capture_output=True, text=True, check=False)
    assert (ran.returncode, len(ran.stderr.splitlines())) == (1, 1), ran
    assert ran.stderr.startswith(f"bin/letters: {output}: ")
    assert sorted(it.name for it in tmp_path.iterdir()) == ["letter.html", "saved.txt"]
    assert output.read_text() == "old"


def run(*words: str, path: str | None = None) -> tuple[int, str]:
    """The command's exit status and what it says."""
    named = {**os.environ, **({"PATH": path} if path is not None else {})}
    ran = subprocess.run(
        ["/bin/sh", TOP / "bin/letters", *words],
        capture_output=True,
        text=True,
        check=False,
        env=named,
    )
    return ran.returncode, ran.stderr


needs = {
    name: pytest.mark.skipif(not shutil.which(name), reason=f"{package} is not installed")
    for name, package in forms.PACKAGES.items()
}


@pytest.mark.parametrize("own", sentences.LANGUAGES)
@needs["lou_translate"]
def test_braille_has_pages_of_25_lines_of_40_cells(own: str, tmp_path: Path) -> None:
    output = tmp_path / "letter.brf"
    words = ["--text", str(TEXTS / f"granted-in-part.{own}.txt"), "--language", own]
    assert run("braille", str(output), *words) == (0, "")
    *pages, rest = output.read_bytes().decode("ascii").split("\f")
    assert len(pages) >= 3 and rest == ""
    for number, page in enumerate(pages, 1):
        lines = page.split("\r\n")
        assert len(lines) == 25 + 1 and lines[-1] == ""
        assert max(map(len, lines)) == 40 and lines[-2].strip() == f"#{'ABCDEFGHI'[number - 1]}"
    text = " ".join("".join(pages).split())
    # ("Walter", "ADA" and the number 60 as an embosser has them; the day of the desk's own words is not there)
    assert "WALT" in text and "#FJ" in text and "ADA" in text and "#BJBE-#JC-#AJ" not in text


@pytest.mark.parametrize("own", sentences.LANGUAGES)
@needs["espeak-ng"]
def test_audio_reads_all_of_a_letter(own: str, tmp_path: Path) -> None:
    output = tmp_path / "letter.wav"
    words = ["--text", str(TEXTS / f"granted-in-part.{own}.txt"), "--language", own]
    assert run("audio", str(output), *words) == (0, "")
    with wave.open(str(output)) as sound:
        seconds = sound.getnframes() / sound.getframerate()
    assert 60 < seconds < 400


def test_what_is_spoken_has_telephones_by_digits_and_no_line_for_a_name() -> None:
    text = (TEXTS / "suspension-appeal-denied.en.txt").read_text("utf-8")
    told = forms.spoken(forms.paragraphs_in(text, "en"))
    assert "Telephone 5 5 5, 0 1 0 0." in told and "___" not in told and "DECISION" not in told


def test_a_text_of_both_languages_gives_the_one_that_is_asked_for() -> None:
    both = f"Hello.\n\nOne.\n\n{forms.BETWEEN}\n\nHola.\n"
    assert forms.paragraphs_in(both, "en") == ["Hello.", "One."]
    assert forms.paragraphs_in(both, "es") == ["Hola."]


def test_large_print_has_18_points_and_no_markup_of_the_letter(tmp_path: Path) -> None:
    text, output = tmp_path / "letter.txt", tmp_path / "letter.html"
    text.write_text("Town\n\n<b>Reasons</b> & more\n\nCall 555-0100.\n", "utf-8")
    assert run("large", str(output), "--text", str(text)) == (0, "")
    assert 'Call <span class="telephone">555-0100</span>.' in output.read_text()
    assert "18pt" in output.read_text() and "&lt;b&gt;Reasons" in output.read_text()


@pytest.mark.parametrize("form, package", [("audio", "espeak-ng"), ("braille", "liblouis-bin")])
def test_a_program_that_is_missing_is_named_with_its_package(
    form: str, package: str, tmp_path: Path
) -> None:
    for name in ("dirname", "readlink", "python3"):
        (tmp_path / name).symlink_to(Path("/usr/bin") / name)
    output = tmp_path / "letter"
    words = ["--text", str(TEXTS / "granted.en.txt")]
    status, said = run(form, str(output), *words, path=str(tmp_path))
    assert (status, said.count("\n")) == (1, 1)
    assert f"install Debian's package {package}" in said and not output.exists()


def test_what_is_no_letter_is_told_in_one_sentence(tmp_path: Path) -> None:
    empty, binary, huge = (tmp_path / name for name in ("empty", "binary", "huge"))
    empty.write_text("\n \n")
    binary.write_bytes(b"caf\xe9")
    huge.write_text("x" * 200_001)
    output, missing = str(tmp_path / "letter.brf"), str(tmp_path / "none")
    for file, said in [
        (empty, "the text is empty"),
        (binary, "no text in UTF-8"),
        (huge, "it is no letter"),
        (tmp_path / "missing", "No such file"),
    ]:
        status, told = run("large", output, "--text", str(file))
        assert status == 1 and said in told and told.count("\n") == 1
    key = tmp_path / "key"
    key.write_text("abc")
    desk = ["--url", "http://127.0.0.1:9", "--key", str(key), "--rider", "7", "--agency"]
    for agency, said in [(missing, "No such file"), (str(key), "no agency.json")]:
        status, told = run("text", output, *desk, agency)
        assert status == 1 and said in told and told.count("\n") == 1
    agency_file = tmp_path / "agency.json"
    agency_file.write_text('{"name": "Town"}')
    status, told = run("text", output, *desk, str(agency_file))
    assert status == 1 and "the desk does not answer" in told and told.count("\n") == 1
    assert run("text", output)[0] == 2
    assert not Path(output).exists()


# Letters that are read from the desk.


@contextlib.contextmanager
def desk_of(letters: dict[int, str], busy: int = 0) -> Iterator[tuple[str, list[str]]]:
    """A desk with these letters, whose site has too many requests so often; its address and the entries that were asked for."""
    seen: list[str] = []

    class Answering(http.server.BaseHTTPRequestHandler):
        """The desk's letters."""

        def do_GET(self) -> None:
            """One letter, 429 or 404."""
            entry = self.path.rpartition("/")[2]
            seen.append(entry)
            text = letters.get(int(entry))
            self.send_response(429 if len(seen) <= busy else 404 if text is None else 200)
            if len(seen) <= busy:
                self.send_header("Retry-After", "1")
            self.end_headers()
            self.wfile.write((text or "").encode())

        def log_message(self, *_: object) -> None:  # pylint: disable=arguments-differ
            """Nothing is logged."""

    with http.server.ThreadingHTTPServer(("127.0.0.1", 0), Answering) as server:
        thread = threading.Thread(target=server.serve_forever)
        thread.start()
        try:
            yield f"http://127.0.0.1:{server.server_port}", seen
        finally:
            server.shutdown()
            thread.join()


@pytest.mark.parametrize("name", list(CASES["riders"]))
def test_one_letter_is_the_same_of_those_that_it_needs_as_of_all(name: str) -> None:
    letters = {int(entry): it for entry, it in CASES["riders"][name]["letters"].items()}
    sender = Sender("Town")
    with desk_of(letters) as (url, _):
        every = asking.letters_of(url, "key", 1001)
        for letter in every:
            needed = asking.letters_for(url, "key", 1001, letter.entry)
            told = [
                composing.blocks_of(letter, About("en", 1001, sender, it)) for it in (every, needed)
            ]
            assert told[0] == told[1], letter


def test_a_letter_that_speaks_of_no_other_is_asked_for_alone() -> None:
    texts = {it: "DATE 2025-03-10\nDECISION suspended\nREASONS x\n" for it in range(9)}
    with desk_of(texts) as (url, seen):
        assert [it.entry for it in asking.letters_for(url, "key", 7, 4)] == [4]
        assert seen == ["4"]


def test_a_site_with_too_many_requests_is_asked_again_and_in_the_end_said(
    monkeypatch: pytest.MonkeyPatch,
) -> None:
    pauses: list[float] = []
    monkeypatch.setattr("desk_tools.letters.asking.time.sleep", pauses.append)
    texts = {0: "DATE 2025-03-10\nDECISION suspended\nREASONS x\n"}
    with desk_of(texts, busy=3) as (url, _):
        assert len(asking.letters_for(url, "key", 7, 0)) == 1
    assert pauses == [1, 1, 1]
    with desk_of(texts, busy=99) as (url, seen):
        with pytest.raises(forms.NoForm, match="too many requests"):
            asking.letters_for(url, "key", 7, 0)
        assert len(seen) == asking.TIMES


@pytest.mark.skipif(not shutil.which("lou_translate"), reason="liblouis-bin is not installed")
@pytest.mark.parametrize("language", forms.LANGUAGES)
def test_a_name_from_elsewhere_leaves_braille_readable(language: str) -> None:
    made = forms.braille(["Çelïk Žižkå, José Núñez"], language)
    assert made.isascii()
    assert language == "en" or "CELIK" in made.upper()


@pytest.mark.parametrize(
    "encoding, mark", [("utf-8-sig", ","), ("utf-8", ";"), ("cp1252", ";"), ("utf-16", "\t")]
)
def test_a_roster_is_read_as_a_spreadsheet_saved_it(
    tmp_path: Path, encoding: str, mark: str
) -> None:
    path = tmp_path / "roster.csv"
    lines = ["Rider,Name,Language,Home", "00101,Ana Núñez,ES,62", "102,Bo,,"]
    path.write_bytes("\r\n".join(it.replace(",", mark) for it in lines).encode(encoding))
    assert asking.rider_in(path, 101) == asking.Rider("Ana Núñez", "es", "62")
    assert asking.rider_in(path, 103) == asking.Rider()


@pytest.mark.parametrize(
    "text, said",
    [
        ("Rider,Language\n101,es\n", "has no column name in row 1"),
        ("rider,name\n101,Ana,one too many\n", "row 2: it has 3 cells"),
        ("PK", "is a workbook and no CSV"),
    ],
)
def test_a_roster_without_the_riders_name_is_named(tmp_path: Path, text: str, said: str) -> None:
    path = tmp_path / "roster.csv"
    path.write_text(text, encoding="utf-8")
    with pytest.raises(forms.NoForm, match=said):
        asking.rider_in(path, 101)
