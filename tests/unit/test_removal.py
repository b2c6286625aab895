"""What a removal of the package stops of other agencies is written down, and starts with the package."""

import pathlib
import subprocess

ROOT = pathlib.Path(__file__).resolve().parents[2]
SYSTEMCTL = """#!/bin/sh
echo "$@" >>"$0.log"
case "$*" in
list-units*)
    for it in desk@main.service desk@north.service desk-backup@main.timer desk-backup@north.timer; do
        echo "$it loaded active running words"
    done ;;
esac
"""


def removed(tmp_path: pathlib.Path, script: str, word: str) -> str:
    """Runs a script of the package with a systemctl that writes down what it is told; those words."""
    programs = tmp_path / "programs"
    programs.mkdir()
    (programs / "systemctl").write_text(SYSTEMCTL, encoding="ascii")
    (programs / "systemctl").chmod(0o755)
    text = (ROOT / "packaging" / script).read_text(encoding="utf-8")
    text = text.replace("/var/lib/desk-stopped", str(tmp_path / "stopped"))
    text = text.replace("/run/systemd/system", str(tmp_path))
    words = ["sh", "-c", f"PATH={programs}:$PATH\n{text}", "sh", word]
    subprocess.run(words, check=True, capture_output=True)
    return (programs / "systemctl.log").read_text(encoding="ascii")


def test_another_agency_is_started_again(tmp_path: pathlib.Path) -> None:
    """desk-setup knows the main one's units alone, so nobody else starts these."""
    told = removed(tmp_path, "prerm", "remove")
    stopped = (tmp_path / "stopped").read_text(encoding="ascii").split()
    assert stopped == ["desk@north.service", "desk-backup@north.timer"]
    assert told.index("list-units") < told.index("stop")
    script = (ROOT / "packaging/postinst").read_text(encoding="utf-8")
    assert "systemctl start $(cat /var/lib/desk-stopped)" in script


def test_a_purge_forgets_what_was_stopped() -> None:
    """What is installed later is another machine's."""
    purge = (ROOT / "packaging/postrm").read_text(encoding="utf-8").partition("\npurge)")[2]
    assert "/var/lib/desk-stopped" in purge.partition(";;\n*)")[0]


ANSWERED = "db_subst() { :; }\ndb_fset() { :; }\ndb_input() { :; }\ndb_go() { :; }\ndb_purge() { :; }\ndb_get() { RET=true; }\n"


def purged(tmp_path: pathlib.Path, *files: str) -> tuple[set[str], str]:
    """Purges with a yes on a machine that has these files: those that are left, and what was said."""
    for name in files:
        (tmp_path / name).parent.mkdir(parents=True, exist_ok=True)
        (tmp_path / name).write_text("kept\n", encoding="ascii")
    (tmp_path / "confmodule").write_text(ANSWERED, encoding="ascii")
    text = (ROOT / "packaging/postrm").read_text(encoding="utf-8")
    text = text.replace("/usr/share/debconf/confmodule", str(tmp_path / "confmodule"))
    for top in ("/var/", "/etc/", "/run/"):
        text = text.replace(top, f"{tmp_path}{top}")
    ran = subprocess.run(
        ["sh", "-c", text, "sh", "purge"], check=True, capture_output=True, text=True
    )
    return {name for name in files if (tmp_path / name).exists()}, ran.stderr


MAIN = (
    "etc/desk/main.conf",
    "etc/desk/watch.conf",
    "var/log/desk/journal-main/day",
    "var/lib/desk-main/desk.db",
)
NORTH = ("etc/desk/north.conf", "var/log/desk/journal-north/day", "var/lib/desk-north/desk.db")


def test_a_purge_with_a_yes_leaves_nothing_of_one_agency(tmp_path: pathlib.Path) -> None:
    assert purged(tmp_path, *MAIN) == (set(), "")


def test_a_purge_with_a_yes_leaves_the_other_agency_what_is_its(tmp_path: pathlib.Path) -> None:
    left, told = purged(tmp_path, *MAIN, *NORTH)
    assert left >= set(NORTH) and "var/lib/desk-main/desk.db" not in left
    assert "another agency has data in these folders" in told and "/etc/desk" in told
