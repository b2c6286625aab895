"""The package's copies of the documents: no command installs the package's files onto themselves."""

import pathlib
import re

from desk_tools.packaging import layout

ROOT = pathlib.Path(__file__).resolve().parents[2]
# Documents that only the sources have a use for, and names that begin as a tool's.
OF_SOURCES = {"CONTRIBUTING.md", "CHANGELOG.md", "CHANGING.md"}
OTHER_NAMES = {"desk-formats", "desk-copies", "desk-main", "desk-standby"}


def test_nothing_is_set_up_by_hand() -> None:
    """No command of a document copies the tree's files onto a machine: the package does."""
    for path in (*(ROOT / "docs").glob("*.md"), *(ROOT / "deploy").glob("*.md")):
        text = path.read_text(encoding="utf-8").replace("\\\n", " ")
        commands = re.findall(r"(?m)^ *(?:install|cp) .*$", text)
        assert not [
            it for it in commands if re.search(r" (?:deploy|bin|python|PROGRAM)\b", it)
        ], path


def test_documents_name_the_package_of_this_version() -> None:
    """Its name has the program's version, but where a command goes back to a package before it."""
    words = (ROOT / "crates/pt_app_command_line/src/words.rt").read_text(encoding="utf-8")
    found = re.search(r'const VERSION: &str = "([\d.]+)";', words)
    assert found
    pages = [ROOT / "README.md", *(ROOT / "docs").glob("*.md"), *(ROOT / "deploy").glob("*.md")]
    lines = [(it.name, line) for it in pages for line in it.read_text(encoding="utf-8").split("\n")]
    named = [
        (page, it)
        for page, line in lines
        for it in re.findall(r"desk_(\d[\w.]*)_amd64", line)
        if "--allow-downgrades" not in line
    ]
    assert named and not [it for it in named if it[1] != found[1]]


def test_keys_of_ssh_have_the_path_of_the_package() -> None:
    """Each line of authorized_keys names the script where the package has it."""
    text = (ROOT / "deploy/BACKUPS.md").read_text(encoding="utf-8")
    assert text.count('restrict,command="/usr/lib/desk/deploy/standby') == 3


def packed() -> dict[str, str]:
    """Each document of the package by its name there, and its text."""
    commands = layout.commands_of(str(ROOT))
    names = {it.name: f"docs/{it.name}" for it in (ROOT / "docs").iterdir() if it.suffix == ".md"}
    names |= {"README.md": "README.md", "RUNNING.md": "deploy/README.md"}
    names |= {"BACKUPS.md": "deploy/BACKUPS.md"}
    texts = {it: (ROOT / path).read_text(encoding="utf-8") for it, path in names.items()}
    return {name: layout.as_packed(text, commands) for name, text in texts.items()}


def test_links_and_documents_are_in_the_package() -> None:
    """Each link of a document, and each other document that it names, is in the package's folder."""
    texts = packed()
    for name, text in texts.items():
        for link in re.findall(r"\]\(([^)#]+)\)", text):
            is_there = link.startswith("http") or (ROOT / "docs" / link).exists() or link in texts
            assert is_there, f"{name}: {link}"
        lost = [
            it for it in re.findall(r"`([A-Z-]+\.md)`", text) if it not in {*texts, *OF_SOURCES}
        ]
        assert not lost, f"{name}: {lost}"
        assert not re.findall(r"(?<![\w/.-])(?:docs|deploy)/[A-Z-]+\.md", text), name


def test_scripts_of_documents_are_in_the_package() -> None:
    """What only the sources have is named to those who change them alone."""
    installed = {it.name for it in (ROOT / "deploy").iterdir() if not it.name.startswith("try")}
    for name, text in packed().items():
        if name not in OF_SOURCES:
            named = re.findall(r"(?<![\w/.-])deploy/([a-z][\w@-]*(?:\.lua)?)", text)
            named += re.findall(r"`(try(?:-[a-z-]+)?)`", text)
            assert not set(named) - installed, name


def test_tools_have_the_names_of_the_package() -> None:
    """A tool of bin/ has its installed name, and a folder or a tool of the sources keeps its own."""
    commands = layout.commands_of(str(ROOT))
    told = {
        "`bin/move-in` and `bin/gate`": "`desk-move-in` and `bin/gate`",
        "bin/warehouse COPY.db FOLDER": "desk-warehouse COPY.db FOLDER",
        "/usr/lib/desk/bin/journal begin": "/usr/lib/desk/bin/journal begin",
        "bin/look.program/any.py": "bin/look.program/any.py",
        "run `bin/office`": "run `desk-demo`",
        "cp -r bin/worklist python /usr/lib": "cp -r bin/worklist python /usr/lib",
    }
    assert {it: layout.as_packed(it, commands) for it in told} == told
    installed = {f"desk-{it}" for it in commands} | {"desk-demo", "desk-setup"}
    named = {it for text in packed().values() for it in re.findall(r"`(desk-[a-z-]+)`", text)}
    units = {it.stem for it in (ROOT / "deploy").glob("desk-*.*")}
    assert not {it for it in named if it not in installed | units | OTHER_NAMES}, named
