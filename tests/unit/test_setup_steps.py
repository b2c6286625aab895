"""What a setup finds already there: a key, a certificate, folders; and what it says where nginx refuses the site."""

from __future__ import annotations

import stat
import subprocess
from pathlib import Path

import pytest

from desk_tools.machine import changes, steps
from desk_tools.machine.settings import Failure

NAME = "desk.test"


@pytest.fixture(name="tls")
def tls_fixture(tmp_path: Path, monkeypatch: pytest.MonkeyPatch) -> Path:
    """The folder of the certificate."""
    folder = tmp_path / "tls"
    folder.mkdir()
    monkeypatch.setattr(steps, "TLS", str(folder))
    return folder


def signed(folder: Path, name: str, days: int = 9) -> None:
    """A certificate for this name, with its key."""
    words = ["openssl", "req", "-x509", "-newkey", "ec", "-pkeyopt", "ec_paramgen_curve:P-256"]
    words += ["-nodes", "-days", str(days), "-subj", f"/CN={name}"]
    words += ["-addext", f"subjectAltName=DNS:{name}"]
    words += ["-keyout", str(folder / "key.pem"), "-out", str(folder / "certificate.pem")]
    subprocess.run(words, check=True, capture_output=True)


def test_a_key_that_waits_for_its_certificate_stays(tls: Path) -> None:
    """An authority may be about to sign for it. Meanwhile the site has a certificate of that key."""
    signed(tls, "other.test")
    key = (tls / "key.pem").read_bytes()
    (tls / "certificate.pem").unlink()
    made = changes.Changes()
    assert steps.make_certificate(made, NAME)
    made.close()
    assert (tls / "key.pem").read_bytes() == key
    words = ["openssl", "x509", "-in", str(tls / "certificate.pem"), "-noout", "-pubkey"]
    wanted = ["openssl", "pkey", "-in", str(tls / "key.pem"), "-pubout"]
    assert subprocess.check_output(words) == subprocess.check_output(wanted)


def test_another_agency_has_a_page_for_people(
    tmp_path: Path, monkeypatch: pytest.MonkeyPatch
) -> None:
    """Its riders read its telephone number too while its desk is away."""
    monkeypatch.setattr(steps.agencies, "SETTINGS", str(tmp_path))
    monkeypatch.setattr(steps.agencies, "SITES", str(tmp_path / "sites"))
    for name in "main", "north", "south":
        (tmp_path / f"{name}.conf").write_text("NAME=x\n", encoding="ascii")
        (tmp_path / "sites" / name).mkdir(parents=True)
    told = '{"name": "North", "telephone": "612-555-0199"}'
    (tmp_path / "sites/north/agency.json").write_text(told, encoding="ascii")
    steps.make_away_of_others()
    assert "612-555-0199" in (tmp_path / "sites/north/away.html").read_text(encoding="utf-8")
    assert not (tmp_path / "sites/south/away.html").exists()


@pytest.mark.parametrize(
    "name, said", [(NAME, ""), ("other.test", "is not one for desk.test, so browsers refuse")]
)
def test_a_certificate_of_another_name_is_told(tls: Path, name: str, said: str) -> None:
    """The pages would open in no browser."""
    signed(tls, name)
    told = steps.told_of_certificate(NAME)
    assert said in "".join(told) and bool(told) is bool(said)


def test_what_was_there_is_closed_to_others(
    tls: Path, tmp_path: Path, monkeypatch: pytest.MonkeyPatch
) -> None:
    """Folders that somebody made beforehand, and the key of the certificate."""
    keys = tmp_path / "keys"
    monkeypatch.setattr(steps, "CLOSED", (str(keys), str(tmp_path / "none")))
    for folder in keys, tls:
        folder.mkdir(exist_ok=True)
        folder.chmod(0o777)
    (tls / "key.pem").write_text("key", encoding="ascii")
    (tls / "key.pem").chmod(0o644)
    steps.close_to_others()
    found = [stat.S_IMODE(it.stat().st_mode) for it in (keys, tls, tls / "key.pem")]
    assert found == [0o700, 0o755, 0o640]


@pytest.mark.parametrize("head", ["nginx: [emerg]", "2026/12/01 05:53:07 [emerg] 6954#6954:"])
def test_what_nginx_refuses_is_told(head: str) -> None:
    """Its last line says only that the test failed. The form of the other depends on its log."""
    refused = f'{head} cannot load certificate "/etc/ssl/desk-north/certificate.pem"'
    last = "nginx: configuration file /etc/nginx/nginx.conf test failed"
    program = f"printf '%s\\n' '{refused}' '{last}' >&2; exit 1"
    with pytest.raises(Failure, match="^sh failed: cannot load certificate ./etc/ssl/desk-north"):
        changes.run("sh", "-c", program)
    with pytest.raises(Failure, match="sh failed: the last$"):
        changes.run("sh", "-c", "echo first >&2; echo the last >&2; exit 1")
