"""Lays out the files of the package in a folder."""
import errno
import gzip
import hashlib
import json
import os
import pathlib
import re
import shutil
import stat
from collections.abc import Collection
from dataclasses import dataclass

from desk_tools import page_packing
from desk_tools.build import sources
from desk_tools.packaging import completion, licences, manual, receipt

# What of bin/ only the sources have a use for.
OF_SOURCES = set("apt-repository check desk gate look.program meter package rehearsal test".split())
# And what of the Python package: beside those commands, what builds the program and the package, and what tries machines.
PYTHON_OF_SOURCES = {"booted", "build", "packaging", *(f"commands/{it}.py" for it in OF_SOURCES)}
# Documents lie beside each other in the package.
DOCUMENTS = [
    (re.compile(r"(?<![\w/.-])deploy/README\.md"), "RUNNING.md"),
    (re.compile(r"(?<![\w/.-])(?:docs|deploy)/([A-Z-]+\.md|openapi\.yaml|pictures/)"), r"\1"),
    (re.compile("`bin/office`"), "`desk-demo`"),
]
# The tools of bin/ have names of their own there, but where a line copies them from the sources.
TOOL, COPIES = re.compile(r"(?<![\w/.-])bin/([a-z][\w-]*)(?![\w/.-]*/)"), re.compile(
    r"\s*(cp|install) "
)
OF_PROOF = """ Every function of the program is proved to meet its contract. The receipt of
 the proof is in /usr/share/doc/desk/receipt.json."""
OF_TRIAL = """ This package is for trial: its program need not be proved. Do not use it for
 real trips."""
# Whose files say of themselves what they are called.
OF_TOOLS = ("bin/", "python/desk_tools/")
SCRIPTS = ["config", "preinst", "postinst", "prerm", "postrm"]


def commands_of(top: str) -> list[str]:
    """The tools of bin/ that the package has, but for the demonstration office."""
    names = sorted(os.listdir(f"{top}/bin"))
    return [
        it
        for it in names
        if it not in OF_SOURCES and it != "office" and os.path.isfile(f"{top}/bin/{it}")
    ]


def as_packed(text: str, commands: list[str]) -> str:
    """A document's text with the names of the package. `commands` are the tools of bin/ that it has."""
    for pattern, new in DOCUMENTS:
        text = pattern.sub(new, text)
    lines = text.splitlines(keepends=True)
    return "".join(it if COPIES.match(it) else with_tools(it, commands) for it in lines)


def with_tools(text: str, commands: list[str]) -> str:
    """A text that calls the tools of bin/ by their installed names, as in what a tool says of itself."""
    return TOOL.sub(lambda it: f"desk-{it[1]}" if it[1] in commands else it[0], text)


# The help of a command, and of each of its words.
Help = tuple[str, dict[str, str]]
# Each by the command's name and the section of its manual page.
Helps = dict[tuple[str, int], Help]


@dataclass(frozen=True)
class Texts:
    """What bin/package writes: the list of changes, the receipt of the proof, the bill of what is linked."""

    changes: str
    proof: receipt.Proof
    bill: receipt.Proof


class Layout:
    def __init__(self, top: str, root: str, kit: str) -> None:
        self.top, self.root, self.kit = top, root, kit

    def path(self, name: str) -> str:
        path = f"{self.root}/{name}"
        os.makedirs(os.path.dirname(path), exist_ok=True)
        return path

    def copy(self, source: str, name: str, mode: int = 0o644) -> None:
        """A file of the tree, in which the tools have the names that the package gives them."""
        content = pathlib.Path(f"{self.top}/{source}").read_bytes()
        if b"\0" not in content and source.startswith(OF_TOOLS):
            content = with_tools(content.decode(), commands_of(self.top)).encode()
        self.write(name, content, mode)

    def document(self, source: str, name: str) -> None:
        """A document, in which others and the tools have the names that they have in the package."""
        self.copy(source, name)
        text = pathlib.Path(f"{self.root}/{name}").read_text("utf-8")
        self.write(name, as_packed(text, commands_of(self.top)))

    def write(self, name: str, content: str | bytes, mode: int = 0o644) -> None:
        content = content.encode() if isinstance(content, str) else content
        pathlib.Path(self.path(name)).write_bytes(content)
        os.chmod(f"{self.root}/{name}", mode)

    def copy_unit(self, source: str, name: str) -> None:
        """A unit of systemd, which names where the documents are: those of the package."""
        self.copy(source, name)
        text = pathlib.Path(f"{self.root}/{name}").read_text("utf-8")
        said = "Documentation=file:///usr/share/doc/desk/RUNNING.md\n"
        self.write(name, re.sub(r"(?m)^Description=.*\n", lambda it: it[0] + said, text, count=1))

    def pack(self, name: str, text: str) -> None:
        self.write(f"{name}.gz", gzip.compress(text.encode(), 9, mtime=0))

    def copy_tree(self, source: str, name: str, without: Collection[str] = ()) -> None:
        """A folder of the tree, without some of its inner folders and files."""
        for place, folders, files in os.walk(f"{self.top}/{source}"):
            inside = os.path.relpath(place, f"{self.top}/{source}")
            folders[:] = [
                it
                for it in folders
                if it != "__pycache__" and os.path.normpath(f"{inside}/{it}") not in without
            ]
            for file in sorted(files):
                inner = os.path.normpath(f"{inside}/{file}")
                if inner in without:
                    continue
                is_run = os.stat(f"{place}/{file}").st_mode & stat.S_IXUSR
                self.copy(f"{source}/{inner}", f"{name}/{inner}", 0o755 if is_run else 0o644)

    def pack_pages(self, name: str) -> None:
        """The pages as a site has them: few and small files."""
        if not page_packing.pack(pathlib.Path(f"{self.top}/pages"), pathlib.Path(self.path(name))):
            raise FileNotFoundError(
                errno.ENOENT, "is not installed, and packs the pages", "esbuild"
            )

    def link(self, name: str, to: str) -> None:
        os.symlink(to, self.path(name))


def put_program(layout: Layout, program: str) -> None:
    shutil.copy(program, layout.path("usr/bin/desk"))
    os.chmod(layout.path("usr/bin/desk"), 0o755)


def put_tools(layout: Layout) -> None:
    """The tools of bin/ and deploy/, and a name for each that somebody calls."""
    for name in sorted(os.listdir(f"{layout.top}/bin")):
        if name in OF_SOURCES or name == "__pycache__":
            continue
        layout.copy(f"bin/{name}", f"usr/lib/desk/bin/{name}", 0o755)
        command = "desk-demo" if name == "office" else f"desk-{name}"
        layout.link(f"usr/bin/{command}", f"../lib/desk/bin/{name}")
    for name in sorted(os.listdir(f"{layout.top}/deploy")):
        if name.endswith((".service", ".timer")):
            layout.copy_unit(f"deploy/{name}", f"lib/systemd/system/{name}")
        elif name == "desk.logrotate":
            layout.copy("deploy/desk.logrotate", "etc/logrotate.d/desk")
        elif not name.startswith(("try", "__")) and not name.endswith(".md"):
            is_run = os.access(f"{layout.top}/deploy/{name}", os.X_OK)
            layout.copy(f"deploy/{name}", f"usr/lib/desk/deploy/{name}", 0o755 if is_run else 0o644)
    for name in "desk-setup", "take-over", "to-main":
        layout.copy(f"packaging/{name}", f"usr/lib/desk/packaging/{name}", 0o755)
    layout.copy_tree(
        "python/desk_tools", "usr/lib/desk/python/desk_tools", without=PYTHON_OF_SOURCES
    )
    layout.link("usr/sbin/desk-setup", "../lib/desk/packaging/desk-setup")
    layout.pack_pages("usr/share/desk/pages")
    layout.link("usr/lib/desk/pages", "../../share/desk/pages")
    layout.copy("packaging/README.etc", "etc/desk/README")
    layout.copy("packaging/lintian-overrides", "usr/share/lintian/overrides/desk")


def put_completion(layout: Layout, helps: dict[str, Help]) -> None:
    """One script, by the name of each command that it completes."""
    folder, first = "usr/share/bash-completion/completions", "desk"
    layout.write(f"{folder}/{first}", completion.script(helps))
    for name in sorted(helps.keys() - {first}):
        layout.link(f"{folder}/{name}", first)


def put_documents(layout: Layout, version: str, day: str, helps: Helps, texts: Texts) -> None:
    """Documents, examples, manual pages, licences, the receipt and the bill of what is linked."""
    shared = "usr/share/doc/desk"
    for name in sorted(os.listdir(f"{layout.top}/docs")):
        if name.endswith((".md", ".yaml")):
            layout.document(f"docs/{name}", f"{shared}/{name}")
    layout.copy_tree("docs/pictures", f"{shared}/pictures")
    layout.document("README.md", f"{shared}/README.md")
    layout.document("deploy/README.md", f"{shared}/RUNNING.md")
    if os.path.exists(f"{layout.top}/deploy/BACKUPS.md"):
        layout.document("deploy/BACKUPS.md", f"{shared}/BACKUPS.md")
    layout.copy_tree("examples", f"{shared}/examples")
    crates = receipt.kits_crates(layout.kit, sources.crates_of(layout.top)[1])
    layout.write(f"{shared}/copyright", licences.copyright_text(layout.kit, crates))
    layout.write(f"{shared}/receipt.json", json.dumps(texts.proof, indent=1) + "\n")
    layout.write(f"{shared}/sbom.spdx.json", json.dumps(texts.bill, indent=1) + "\n")
    layout.pack(f"{shared}/changelog", texts.changes)
    put_manuals(layout, version, day, helps)
    put_completion(layout, {name: said for (name, _), said in helps.items()})


def put_manuals(layout: Layout, version: str, day: str, helps: Helps) -> None:
    also = "desk(1), desk-formats(5), desk-setup(8), desk-demo(1)"
    for (name, section), (text, inner) in helps.items():
        page = manual.of_help(name, section, text, inner, day, version, also)
        layout.pack(f"usr/share/man/man{section}/{name}.{section}", page)
    page = manual.of_markdown(
        "desk-formats",
        5,
        "what the desk reads and writes",
        pathlib.Path(f"{layout.top}/docs/FORMATS.md").read_text("utf-8"),
        day,
        version,
    )
    layout.pack("usr/share/man/man5/desk-formats.5", page)


def put_control(layout: Layout, version: str, is_proved: bool) -> None:
    """What dpkg reads: the control file, the conffiles, the scripts, and the checksums."""
    size = sum(
        os.path.getsize(f"{place}/{it}")
        for place, _, files in os.walk(layout.root)
        for it in files
        if not os.path.islink(f"{place}/{it}")
    )
    with open(f"{layout.top}/packaging/control", encoding="utf-8") as file:
        text = file.read().replace("@VERSION@", version).replace("@SIZE@", str(size // 1_024))
    note, paragraph = ("", OF_PROOF) if is_proved else (" (for trial)", OF_TRIAL)
    text = text.replace("@NOTE@", note).replace("@PROOF@", paragraph)
    layout.write("DEBIAN/control", text)
    configured = sorted(
        f"{place}/{it}"[len(layout.root) :]
        for place, _, files in os.walk(f"{layout.root}/etc")
        for it in files
    )
    layout.write("DEBIAN/conffiles", "".join(f"{it}\n" for it in configured))
    for name in SCRIPTS:
        layout.copy(f"packaging/{name}", f"DEBIAN/{name}", 0o755)
    layout.copy("packaging/templates", "DEBIAN/templates")
    sums = []
    for place, _, files in os.walk(layout.root):
        for it in files:
            path = f"{place}/{it}"
            if (
                not os.path.islink(path)
                and "/DEBIAN" not in path
                and path[len(layout.root) :] not in configured
            ):
                sums.append((path[len(layout.root) + 1 :], path))
    layout.write(
        "DEBIAN/md5sums", "".join(f"{md5_of(path)}  {name}\n" for name, path in sorted(sums))
    )


def md5_of(path: str) -> str:
    return hashlib.md5(pathlib.Path(path).read_bytes()).hexdigest()
