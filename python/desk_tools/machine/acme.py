"""A certificate of a public authority by ACME, with Debian's dehydrated: had once here, renewed by desk-acme.timer."""
import os
import re
import shutil
import subprocess

from desk_tools import agencies
from desk_tools.machine.changes import run
from desk_tools.machine.changes import Changes
from desk_tools.machine.settings import MAIL, WrongWords
from desk_tools.machine.settings import Settings

FOLDER, WORK, CHALLENGES = (
    f"{agencies.SETTINGS}/acme",
    "/var/lib/desk-acme",
    "/var/www/html/.well-known/acme-challenge",
)
PUBLIC = "letsencrypt"
CONFIG = """# By desk-setup.
CA="{authority}"
BASEDIR={work}
DOMAINS_TXT={folder}/domains.txt
WELLKNOWN={challenges}
HOOK={hook}
CONTACT_EMAIL={mail}
"""


def authority_in(text: str) -> str:
    """The name of an authority that dehydrated knows, or an address."""
    if re.fullmatch(r"[a-z-]+|https://[A-Za-z0-9._~:/-]+", text):
        return text
    raise WrongWords(
        f"{text!r} is no authority: {PUBLIC}, or the https:// address of an ACME directory"
    )


def make(changes: Changes, settings: Settings, hook: str) -> None:
    """The settings of dehydrated. What a person added to them, such as CURL_OPTS, stays in a file beside them."""
    if not shutil.which("dehydrated"):
        run(
            "apt-get",
            "install",
            "--yes",
            "--quiet",
            "dehydrated",
            env={**os.environ, "DEBIAN_FRONTEND": "noninteractive"},
        )
    mail = settings["alarm"] if MAIL.fullmatch(settings["alarm"]) else ""
    text = CONFIG.format(
        authority=settings["acme"],
        work=WORK,
        folder=FOLDER,
        challenges=CHALLENGES,
        hook=hook,
        mail=mail,
    )
    if os.path.exists(f"{FOLDER}/more"):
        text += f". {FOLDER}/more\n"
    changes.write(f"{FOLDER}/config", text)
    changes.write(f"{FOLDER}/domains.txt", f"{settings['name']}\n")
    os.makedirs(CHALLENGES, exist_ok=True)
    os.makedirs(WORK, mode=0o700, exist_ok=True)


def have(lines: list[str]) -> None:
    """Has a certificate now. Where the authority gives none the site goes on with the one that it has."""
    words = ["dehydrated", "--config", f"{FOLDER}/config", "--register", "--accept-terms"]
    ran = subprocess.run(
        words, capture_output=True, text=True, stdin=subprocess.DEVNULL, check=False
    )
    if ran.returncode == 0:
        ran = subprocess.run(
            ["systemctl", "start", "desk-acme.service"], capture_output=True, text=True, check=False
        )
    if ran.returncode:
        said = [
            it.strip()
            for it in (ran.stdout + ran.stderr).splitlines()
            if "ERROR" in it or "failed" in it
        ]
        lines.append(
            f"The authority gave no certificate ({said[0] if said else 'see journalctl -u desk-acme'}). The site "
            "goes on with the one that it has; desk-setup --acme tries again."
        )
    else:
        lines.append("The certificate is the authority's, and is renewed by itself.")
