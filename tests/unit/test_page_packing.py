"""Tests of how the pages are packed: which files a page asks for, and what is said where they cannot be packed."""

import shutil
import subprocess
from pathlib import Path

import pytest

from desk_tools import page_packing
from desk_tools.page_packing import CORE, Graph, Unpackable, bundle_of, graph_of, grouped, index_of

TOP = Path(__file__).resolve().parents[2]
PAGES = TOP / "pages"
TOLD = {
    "outputs": {
        "../tmp/x/pages/parts/main.js": {
            "entryPoint": "parts/main.js",
            "imports": [
                {"path": "../tmp/x/pages/parts/part-A.js", "kind": "import-statement"},
                {"path": "../tmp/x/pages/parts/part-D.js", "kind": "dynamic-import"},
            ],
        },
        "../tmp/x/pages/parts/part-A.js": {"imports": []},
        "../tmp/x/pages/parts/part-B.js": {"imports": []},
        "../tmp/x/pages/parts/early.js": {
            "entryPoint": "parts/early.js",
            "imports": [{"path": "../tmp/x/pages/parts/part-B.js", "kind": "import-statement"}],
        },
        "../tmp/x/pages/parts/part-D.js": {
            "entryPoint": "screens/driver.js",
            "imports": [
                {"path": "../tmp/x/pages/parts/part-A.js", "kind": "import-statement"},
                {"path": "../tmp/x/pages/parts/part-B.js", "kind": "import-statement"},
            ],
        },
    }
}
PAGE = """<head>
<script src="parts/early.js" data-driver="parts/queue.js screens/driver.js"></script>
<link rel="modulepreload" href="parts/agency.js">
<link rel="modulepreload" href="parts/ask.js">
</head>
"""


def test_a_module_takes_what_it_imports_at_once() -> None:
    bundle = bundle_of(TOLD)
    assert bundle.taken_by("parts/main.js") == ["parts/main.js", "parts/part-A.js"]
    assert bundle.taken_by("screens/driver.js") == [
        "parts/part-D.js",
        "parts/part-A.js",
        "parts/part-B.js",
    ]


def test_the_page_asks_for_the_packed_files_in_place_of_the_modules() -> None:
    assert index_of(PAGE, bundle_of(TOLD)) == (
        '<head>\n<script src="parts/early.js" data-driver="parts/part-D.js parts/part-B.js"></script>\n'
        '<link rel="modulepreload" href="parts/part-A.js">\n<link rel="modulepreload" href="parts/part-B.js">\n</head>\n'
    )


def test_a_screen_that_is_no_module_is_named() -> None:
    with pytest.raises(Unpackable, match="names officer"):
        index_of(PAGE.replace("data-driver", "data-officer"), bundle_of(TOLD))


def test_a_page_without_preloads_is_refused() -> None:
    with pytest.raises(Unpackable, match="preloads no module"):
        index_of("<head></head>\n", bundle_of(TOLD))


def test_the_graph_is_read_of_what_esbuild_tells() -> None:
    imports = [
        {"path": "parts/b.js", "kind": "import-statement"},
        {"path": "screens/c.js", "kind": "dynamic-import"},
    ]
    told = {
        "inputs": {"parts/a.js": {"imports": imports}, "parts/b.js": {"imports": []}},
        "outputs": {"x/a.js": {"entryPoint": "parts/a.js"}, "x/part-1.js": {}},
    }
    graph = graph_of(told)
    assert (graph.imports["parts/a.js"], graph.entries) == (["parts/b.js"], {"parts/a.js"})
    assert graph.taken_by("parts/a.js") == {"parts/a.js", "parts/b.js"}


def test_what_every_screen_takes_is_one_group_and_what_an_early_one_shares_is_another() -> None:
    graph = Graph(
        {
            "parts/early.js": ["parts/kept.js"],
            "parts/main.js": ["parts/early.js", "parts/desk.js"],
            "parts/desk.js": ["parts/kept.js"],
            "parts/kept.js": [],
            "parts/draw.js": [],
            "parts/own.js": [],
            "screens/driver.js": ["parts/desk.js", "parts/draw.js", "parts/own.js"],
            "screens/clerk.js": ["parts/draw.js"],
            "screens/admin.js": [],
        },
        frozenset(
            {
                "parts/early.js",
                "parts/main.js",
                "screens/driver.js",
                "screens/clerk.js",
                "screens/admin.js",
            }
        ),
    )
    screens = ["screens/admin.js", "screens/clerk.js", "screens/driver.js"]
    assert grouped(graph, ["screens/driver.js"]) == {
        CORE: (["parts/desk.js", "parts/early.js", "parts/kept.js"], ["parts/main.js", *screens]),
        "parts/with-driver.js": (["parts/draw.js"], ["screens/clerk.js", "screens/driver.js"]),
    }


def test_without_esbuild_the_pages_are_copied_as_they_are(
    tmp_path: Path, monkeypatch: pytest.MonkeyPatch, capsys: pytest.CaptureFixture[str]
) -> None:
    monkeypatch.setattr(page_packing.shutil, "which", lambda _: None)
    target = tmp_path / "made" / "pages"
    assert page_packing.main([str(PAGES), str(target)]) == 0
    assert "not installed" in capsys.readouterr().out
    assert (target / "parts" / "main.js").read_bytes() == (PAGES / "parts" / "main.js").read_bytes()
    assert not (target / "README.md").exists()


@pytest.mark.skipif(not shutil.which(page_packing.ESBUILD), reason="esbuild is not installed")
def test_the_pages_are_packed_the_same_way_each_time_and_each_file_is_there(tmp_path: Path) -> None:
    first, second = tmp_path / "first", tmp_path / "second"
    for target in (first, second, second):
        assert page_packing.main([str(PAGES), str(target)]) == 0
    names = sorted(str(it.relative_to(first)) for it in first.rglob("*") if it.is_file())
    assert names == sorted(str(it.relative_to(second)) for it in second.rglob("*") if it.is_file())
    assert all((first / name).read_bytes() == (second / name).read_bytes() for name in names)
    page = (first / "index.html").read_text(encoding="utf-8")
    asked = page_packing.re.findall(r'modulepreload" href="([^"]+)"', page)
    ahead = [
        name for it in page_packing.AHEAD.finditer(page) for name in it[0].split('"')[1].split()
    ]
    assert asked and ahead and all((first / name).is_file() for name in [*asked, *ahead])
    assert not (first / "screens").exists()
    # (a phone waits for each file by itself)
    assert len(asked) <= 2 and len(ahead) <= 4
    assert {it.stat().st_mode & 0o777 for it in first.rglob("*")} == {0o644, 0o755}


@pytest.mark.parametrize("source", ["none", "same"])
def test_what_cannot_be_packed_is_one_sentence(
    source: str, tmp_path: Path, capsys: pytest.CaptureFixture[str]
) -> None:
    (tmp_path / "same").mkdir()
    (tmp_path / "same" / "index.html").write_text("<p>", encoding="utf-8")
    assert page_packing.main([str(tmp_path / source), str(tmp_path / "same")]) == 1
    assert capsys.readouterr().err.count("\n") == 1
    assert (tmp_path / "same" / "index.html").exists()


def test_no_package_is_made_without_esbuild(tmp_path: Path) -> None:
    for name in ("dpkg-deb", "git", "rt"):
        (tmp_path / name).symlink_to("/bin/true")
    for name in ("python3", "dirname", "readlink"):
        (tmp_path / name).symlink_to(shutil.which(name) or name)
    words = [str(TOP / "bin/package"), "--for-trial", "--program", "/bin/true"]
    ran = subprocess.run(
        [*words, "--output", str(tmp_path)],
        env={"PATH": str(tmp_path)},
        capture_output=True,
        text=True,
        check=False,
    )
    said = "bin/package: esbuild is missing on this machine, and a package takes it\n"
    assert (ran.returncode, ran.stderr) == (1, said)
    assert not list(tmp_path.glob("*.deb"))
