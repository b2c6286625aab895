"""Packs the pages for a phone's line: the same pages in few and small files, made by esbuild.

pack-pages FROM TO copies the folder of the pages, puts the modules that a screen takes together, and leaves out comments
and blanks. Without esbuild the copy is as it is, which is said. What is packed is never edited: change FROM, pack again.
"""

import json
import re
import shutil
import subprocess
import sys
import tempfile
from collections.abc import Iterable
from dataclasses import dataclass
from pathlib import Path
from typing import Any

from desk_tools import ending
from desk_tools.arguments import usage_of

ESBUILD = "esbuild"
ENTRIES = ("parts/early.js", "parts/main.js")
# Of the folder of the pages, what is for the people who change them alone.
OF_SOURCES = ("README.md", "tsconfig.json", "types.d.ts")
# The modules that are read by themselves, as they are asked for first.
FIRST, MAIN = ENTRIES
CORE = "parts/core.js"
PRELOADS = re.compile(r'(?m)^<link rel="modulepreload" href="[^"]*">\n')
AHEAD = re.compile(r'data-(\w+)="[^"]*"')
LONGEST = 120.0


class Unpackable(Exception):
    """Why the pages are not packed, in one sentence."""


@dataclass(frozen=True)
class Bundle:
    """What esbuild made: of each file which it imports at once, and the file of each module that is an entry."""

    imports: dict[str, list[str]]
    entries: dict[str, str]

    def taken_by(self, module: str) -> list[str]:
        """The files that a module of the sources takes, its own first."""
        taken: list[str] = []
        waiting = [self.entries[module]]
        while waiting:
            name = waiting.pop(0)
            if name not in taken:
                taken.append(name)
                waiting += self.imports[name]
        return taken


def bundle_of(told: dict[str, Any]) -> Bundle:
    """The bundle that a metafile of esbuild tells of, by names within the packed folder."""
    outputs = {_inner(name): it for name, it in told["outputs"].items()}
    return Bundle(
        {
            name: [
                _inner(one["path"]) for one in it["imports"] if one["kind"] == "import-statement"
            ]
            for name, it in outputs.items()
        },
        {it["entryPoint"]: name for name, it in outputs.items() if "entryPoint" in it},
    )


@dataclass(frozen=True)
class Graph:
    """The modules of the sources: which each imports at once, and which are asked for by themselves."""

    imports: dict[str, list[str]]
    entries: frozenset[str]

    def taken_by(self, module: str) -> frozenset[str]:
        """The modules that a module takes, and itself."""
        taken: set[str] = set()
        waiting = [module]
        while waiting:
            name = waiting.pop()
            if name not in taken:
                taken.add(name)
                waiting += self.imports[name]
        return frozenset(taken)


def graph_of(told: dict[str, Any]) -> Graph:
    """The graph that a metafile of esbuild tells of."""
    inputs = told["inputs"]
    return Graph(
        {
            name: [it["path"] for it in one["imports"] if it["kind"] == "import-statement"]
            for name, one in inputs.items()
        },
        frozenset(it["entryPoint"] for it in told["outputs"].values() if "entryPoint" in it),
    )


def grouped(graph: Graph, ahead: Iterable[str]) -> dict[str, tuple[list[str], list[str]]]:
    """The groups that belong in one file each, since a phone waits for each file: by the name of a module to be made, what
    it imports and which modules import it. `ahead` are the screens that a page asks for early."""
    core = graph.taken_by(MAIN) - {MAIN}
    groups = {CORE: (sorted(core), sorted(graph.entries - {FIRST}))}
    for name in ahead:
        mine = graph.taken_by(name) - core - {name, MAIN}
        others = {it: graph.taken_by(it) & mine for it in graph.entries - {name, FIRST, MAIN}}
        shared = sorted({module for it in others.values() for module in it})
        if shared:
            takers = sorted({it for it, taken in others.items() if taken} | {name})
            groups[f"parts/with-{Path(name).name}"] = (shared, takers)
    return groups


def write_groups(folder: Path, groups: dict[str, tuple[list[str], list[str]]]) -> None:
    """Makes the modules of groups, and has their takers import them."""

    def imported(name: str, taker: str) -> str:
        return f'import "{"../" * (len(Path(taker).parts) - 1)}{name}";\n'

    for name, (members, takers) in groups.items():
        text = "".join(imported(it, name) for it in members)
        (folder / name).write_text(text, encoding="utf-8")
        for taker in takers:
            path = folder / taker
            path.write_text(
                imported(name, taker) + path.read_text(encoding="utf-8"), encoding="utf-8"
            )


def _inner(name: str) -> str:
    """A file's name from `parts/` on: esbuild tells it from where it ran."""
    return name[name.index("parts/") :]


def index_of(page: str, bundle: Bundle) -> str:
    """index.html with the packed files in place of the modules that it asks for early."""
    first = bundle.taken_by("parts/main.js")
    links = "".join(
        f'<link rel="modulepreload" href="{name}">\n'
        for name in [*first[1:], *_beside(bundle, first)]
    )

    def ahead(found: re.Match[str]) -> str:
        name = found[1]
        module = _module_of(name, bundle.entries)
        return f'data-{name}="{" ".join(it for it in bundle.taken_by(module) if it not in first)}"'

    start = PRELOADS.search(page)
    if start is None:
        raise Unpackable("index.html preloads no module")
    bare = PRELOADS.sub("", page)
    return AHEAD.sub(ahead, bare[: start.start()] + links + bare[start.start() :])


def _module_of(name: str, entries: Iterable[str]) -> str:
    """The module of a screen that index.html names."""
    known = set(entries)
    for module in (f"screens/{name}.js", f"parts/{name}.js"):
        if module in known:
            return module
    raise Unpackable(f"index.html names {name}, and no module of the pages has this name")


def _beside(bundle: Bundle, first: list[str]) -> list[str]:
    """What parts/early.js takes beside the files of parts/main.js."""
    return [it for it in bundle.taken_by("parts/early.js")[1:] if it not in first]


def _esbuild(folder: Path, *words: str) -> None:
    ran = subprocess.run(
        [ESBUILD, *words, "--minify", "--target=es2022", "--charset=utf8", "--log-level=warning"],
        cwd=folder,
        capture_output=True,
        text=True,
        stdin=subprocess.DEVNULL,
        timeout=LONGEST,
        check=False,
    )
    if ran.returncode:
        raise Unpackable(f"{ESBUILD} does not take the pages: {' '.join(ran.stderr.split())[:300]}")


def _apart(folder: Path) -> Iterable[str]:
    """Files that stay by themselves: words, styles and the service worker."""
    paths = [*folder.glob("words/**/*.js"), *folder.glob("*.css"), *folder.glob("css/*.css")]
    return sorted(
        str(it.relative_to(folder)) for it in [*paths, folder / "service-worker.js"] if it.is_file()
    )


def _bundled(folder: Path, target: str) -> dict[str, Any]:
    """Puts the modules of a folder together in another; the metafile of esbuild."""
    telling = f"{target}.json"
    shape = ["--bundle", "--splitting", "--format=esm", "--outbase=.", "--entry-names=[dir]/[name]"]
    names = [f"--outdir={target}", "--chunk-names=parts/part-[hash]", f"--metafile={telling}"]
    _esbuild(folder, *ENTRIES, *shape, *names)
    told: dict[str, Any] = json.loads(Path(telling).read_text(encoding="utf-8"))
    return told


def bundle_folder(folder: Path) -> None:
    """Packs a copy of the pages in its place."""
    with tempfile.TemporaryDirectory(prefix="desk-packing-") as made:
        page = folder / "index.html"
        graph = graph_of(_bundled(folder, f"{made}/first"))
        names = AHEAD.findall(page.read_text(encoding="utf-8"))
        write_groups(folder, grouped(graph, [_module_of(it, graph.entries) for it in names]))
        told = _bundled(folder, f"{made}/pages")
        _esbuild(folder, *_apart(folder), "--outdir=.", "--outbase=.", "--allow-overwrite")
        page.write_text(
            index_of(page.read_text(encoding="utf-8"), bundle_of(told)), encoding="utf-8"
        )
        for name in ("parts", "screens"):
            shutil.rmtree(folder / name)
        shutil.copytree(f"{made}/pages", folder, dirs_exist_ok=True)


def pack(source: Path, target: Path) -> bool:
    """Packs the pages of a folder into another, which is made anew; whether esbuild was there."""
    if not (source / "index.html").is_file():
        raise Unpackable(f"{source} has no pages")
    if target.resolve() == source.resolve():
        raise Unpackable("the packed pages have to be in another folder than the pages themselves")
    has_tool = shutil.which(ESBUILD) is not None
    target.parent.mkdir(parents=True, exist_ok=True)
    with tempfile.TemporaryDirectory(prefix=".pages-", dir=target.parent) as beside:
        copy = Path(beside) / "pages"
        shutil.copytree(source, copy, ignore=shutil.ignore_patterns(*OF_SOURCES))
        if has_tool:
            bundle_folder(copy)
        # Anybody may read them, whatever the mask of who packs.
        for path in [copy, *copy.rglob("*")]:
            path.chmod(0o755 if path.is_dir() else 0o644)
        if target.exists():
            target.rename(Path(beside) / "old")
        copy.rename(target)
    return has_tool


def main(words: list[str] | None = None) -> int:
    """Packs the folder that is named on the command line."""
    reader = usage_of("deploy/pack-pages", __doc__)
    reader.takes("source FROM", "the folder of the pages", type=Path)
    reader.takes("target TO", "where the site has them; it is replaced", type=Path)
    given = reader.parse_args(words)
    try:
        is_packed = pack(given.source, given.target)
    except (OSError, Unpackable, ValueError, subprocess.TimeoutExpired) as error:
        print(f"pack-pages: {error}", file=sys.stderr)
        return 1
    print(
        "the pages are packed"
        if is_packed
        else f"{ESBUILD} is not installed: the pages are copied as they are"
    )
    return 0


if __name__ == "__main__":
    ending.run("deploy/pack-pages", main)
