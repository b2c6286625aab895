"""Reads the files of the pages without a browser: `pages_static [--install] [FOLDER]`.

It runs the type checker (tsc), and reads each module's syntax by node (pages_syntax.js). Each imported name must be exported and each
exported one imported. Names that nothing uses, loose comparisons, lines over 100 columns and two statements on a line are
refused, in the tests of tests/pure too; the types of `any` in tests/pages_any only become fewer. No word may be missing in a
language and none left over, no text that a person reads may stand outside of pages/words, and styles use the tokens of desk.css
and select what some page says.
--install first installs what it takes by apt: node-typescript, nodejs. What is not installed is left out, in one line.
FOLDER is another folder of pages. The last line is 'N passed, M failed', and the exit status 1 where something failed.
"""
import functools
import glob
import json
import os
import re
import shutil
import subprocess
import sys

from desk_tools.arguments import usage_of
from desk_tools.tree import TOP

LANGUAGES = ["en", "es"]
ANY = f"{TOP}/tests/pages_any"
TOKEN = re.compile(
    r"""
    (?P<comment>//[^\n]*|/\*.*?\*/) | (?P<string>"(?:[^"\\\n]|\\.)*"|'(?:[^'\\\n]|\\.)*') | (?P<template>`) |
    (?P<regex>/(?:[^/\\\n\[]|\\.|\[(?:[^\]\\\n]|\\.)*\])+/[a-z]*) | (?P<word>[\w$]+) | (?P<open>\{) | (?P<close>\}) |
    (?P<space>\s+) | (?P<sign>.)""",
    re.S | re.X,
)
# Words that no name of a class or of an attribute has: a text of two words or more with one of them is English.
ENGLISH = set(
    "a an and are as at be but by can for from has have if in is it its may no not of on or our so than "
    "that the their then there they this to was were what when where which who will with yes you your".split()
)
# Single words with a capital that no person reads: keys of the keyboard, headers, formats.
NAMES = set(
    "ArrowDown ArrowUp ArrowLeft ArrowRight Enter Escape Tab Home End PageUp PageDown Space Backspace Delete "
    "Desk English Español Error".split()
)
# Names of rules that the desk tells in two words.
RULES = {"no vehicle"}


@functools.cache
def pieces(source):
    """The pieces of a module as (kind, line, text): of a literal its inside, of a template what is between its values."""
    return tuple(pieces_of(source))


def pieces_of(source):
    at, line, before, depths = 0, 1, "", []
    while at < len(source):
        token = TOKEN.match(source, at)
        kind, text = token.lastgroup, token.group()
        if (
            kind == "regex"
            and re.fullmatch(r"[\w$)\]]+", before)
            and before not in ("return", "case", "typeof")
        ):
            kind, text = "sign", source[at]
        if kind == "template" or kind == "close" and depths and depths[-1] == 0:
            if kind == "close":
                depths.pop()
            yield "template", line, source[
                at + 1 : (found := template_from(source, at + 1, line, depths))[2]
            ]
            at, line, before = found[0], found[1], "`"
            continue
        yield kind, line, text[1:-1] if kind == "string" else text
        if depths and kind in ("open", "close"):
            depths[-1] += 1 if kind == "open" else -1
        before = before if kind in ("space", "comment") else text
        line += text.count("\n")
        at += len(text)


def template_from(source, at, line, depths):
    """Reads a template up to its end or to its next value: where it goes on, on which line, and where the text ends."""
    while at < len(source):
        if source[at] == "`":
            return at + 1, line, at
        if source.startswith("${", at):
            depths.append(0)
            return at + 2, line, at
        line += source[at] == "\n"
        at += 2 if source[at] == "\\" else 1
    return at, line, at


def texts_in(source):
    """Each literal text and its line, but for those of errors, which nobody reads."""
    last = ["", ""]
    for kind, line, text in pieces(source):
        if kind in ("string", "template") and last != ["Error", "("]:
            yield line, text
        if kind not in ("space", "comment"):
            last = [last[1], text]


def code_of(source):
    """A module without its remarks and literal texts."""
    return "".join(
        text
        for kind, _, text in pieces(source)
        if kind not in ("string", "template", "comment", "regex")
    )


def is_english(text):
    words = re.findall(r"[A-Za-z']+", text)
    # (the path of a sign is drawn, and not read)
    if re.fullmatch(r"[Mm]\d[MLHVCSQTAZmlhvcsqtaz\d ,.-]*", text):
        return False
    if not words or text in RULES or re.search(r"[/_=<>#{}]|^\W*[a-z]+[.:-][a-z]|^49 CFR", text):
        return False
    if len(words) == 1:
        return (
            bool(re.fullmatch(r"[^A-Za-z]*[A-Z][a-z]{2,}[.!?…: ]*", text)) and words[0] not in NAMES
        )
    return bool(re.match(r"\W*[A-Z][a-z]+ [a-zA-Z]", text)) or any(
        word.lower() in ENGLISH for word in words
    )


def modules(folder):
    return sorted(
        glob.glob(f"{folder}/parts/*.js")
        + glob.glob(f"{folder}/screens/*.js")
        + glob.glob(f"{folder}/*.js")
    )


def read(path):
    with open(path, encoding="utf-8") as text:
        return text.read()


@functools.cache
def syntax_of(folder):
    """What pages_syntax.js reads of each module of the pages and of their tests."""
    words = ["node", f"{TOP}/tests/pages_syntax.js", folder, f"{TOP}/tests/pure"]
    ran = subprocess.run(words, capture_output=True, text=True, check=True)
    return json.loads(ran.stdout)


def imports_that_fail(folder):
    found = syntax_of(folder)
    for path, module in found.items():
        for taken in module["taken"]:
            target = in_folder(taken["from"], folder)
            if not os.path.isfile(target):
                yield f"{shown(path)} imports {shown(target)}, which is not there"
            elif target in found and not taken["later"]:
                for name in sorted(set(taken["names"]) - set(found[target]["exports"])):
                    yield f"{shown(path)} takes {name} of {shown(target)}, which does not export it"


def in_folder(path, folder):
    """The module of FOLDER for one of the repository's pages, which the tests import."""
    return re.sub(f"^{re.escape(TOP)}/pages(?=/)", folder, path)


def exports_that_fail(folder):
    """Names that a module exports, and that neither another module nor a test takes of it."""
    browser = "\n".join(read(it) for it in glob.glob(f"{TOP}/tests/browser/*.py"))
    taken = {}
    for module in syntax_of(folder).values():
        for it in module["taken"]:
            names = taken.setdefault(in_folder(it["from"], folder), set())
            names |= {"*"} if it["all"] else set(it["names"])
    for path, module in syntax_of(folder).items():
        names = taken.get(path, set())
        for name in module["exports"]:
            if not names & {name, "*"} and not re.search(rf"\b{name}\b", browser):
                yield f"{shown(path)} exports {name}, and nobody takes it"


def rules_that_fail(folder):
    """Names that nothing uses, loose comparisons, lines that are too wide, and two things on a line."""
    for path, module in syntax_of(folder).items():
        for fault in module["faults"]:
            yield f"{shown(path)}:{fault['line']} {fault['text']} ({fault['rule']})"


def types_of_anything_that_fail(folder):
    """A type that says `any` checks nothing. The list has how many each file has still, and only shrinks."""
    listed = {}
    for line in read(ANY).splitlines():
        if line and not line.startswith("#"):
            count, name = line.split()
            listed[name] = int(count)
    found = {
        os.path.relpath(path, folder): module["any"]
        for path, module in syntax_of(folder).items()
        if path.startswith(f"{folder}/")
    }
    for name in sorted(set(listed) | set(found)):
        now, before = found.get(name, 0), listed.get(name, 0)
        if now > before:
            yield f"{name} has {now} types of any, and {shown(ANY)} has {before}: name the type"
        if now < before:
            yield f"{name} has {now} types of any: write that into {shown(ANY)}, which has {before}"


def taken_by(path):
    """A module and all that it imports."""
    found = syntax_of(os.path.dirname(os.path.dirname(path)))
    taken, waiting = set(), [path]
    while waiting:
        path = waiting.pop()
        if path in taken or path not in found:
            continue
        taken.add(path)
        waiting += [it["from"] for it in found[path]["taken"] if not it["later"]]
    return taken


def preloads_that_fail(folder):
    """The files that index.html asks for at once have to be those that main.js takes, and those of no other screen. The
    files of a screen that it names for parts/early.js have to be all that its module takes beside those.
    """
    main = os.path.join(folder, "parts", "main.js")
    taken = taken_by(main)
    wanted = {os.path.relpath(path, folder) for path in taken - {main}}
    asked = {
        it for it in re.findall(r'rel="modulepreload" href="([^"]+)"', read(f"{folder}/index.html"))
    }
    yield from (f"index.html does not preload {name}" for name in sorted(wanted - asked))
    yield from (
        f"index.html preloads {name}, which main.js does not take"
        for name in sorted(asked - wanted)
        if not os.path.isfile(f"{folder}/{name}") or not name.startswith("words/")
    )
    for name, listed in re.findall(r'data-(\w+)="([^"]*)"', read(f"{folder}/index.html")):
        entry = f"{folder}/screens/{name}.js"
        entry = entry if os.path.isfile(entry) else f"{folder}/parts/{name}.js"
        own = {os.path.relpath(path, folder) for path in taken_by(entry) - taken}
        yield from (
            f"index.html: data-{name} and what it takes differ by {one}"
            for one in sorted(own ^ set(listed.split()))
        )


def shown(path):
    return os.path.relpath(path, TOP)


def words_of(folder, language):
    """The keys of each file of words; a key that stands twice is listed twice."""
    return {
        os.path.basename(path)[:-3]: re.findall(
            r'^    "([^"]+)":', read(path).partition("export const words = {")[2], re.M
        )
        for path in sorted(glob.glob(f"{folder}/words/{language}/*.js"))
    }


def words_that_fail(folder):
    english, *others = [words_of(folder, language) for language in LANGUAGES]
    for language, words in zip(LANGUAGES, [english, *others]):
        for name, keys in words.items():
            file = f"words/{language}/{name}.js"
            yield from (
                f"{file}: {key} is there twice"
                for key in sorted({it for it in keys if keys.count(it) > 1})
            )
            yield from (
                f"{file}: {key} does not begin with {name}."
                for key in keys
                if not key.startswith(f"{name}.")
            )
        for name in sorted(set(english) | set(words)):
            here, there = set(english.get(name, [])), set(words.get(name, []))
            yield from (f"words/{language}/{name}.js lacks {key}" for key in sorted(here - there))
            yield from (
                f"words/en/{name}.js lacks {key}, which {language} has"
                for key in sorted(there - here)
            )


def keys_that_fail(folder):
    """Keys that a module asks for and no file has, and keys that none asks for."""
    known = {key for keys in words_of(folder, "en").values() for key in keys}
    files = tuple(f"{name}." for name in words_of(folder, "en"))
    asked, begun = set(), set()
    for path in modules(folder):
        source = read(path)
        for _, text in texts_in(source):
            if text.startswith(files) and not text.endswith(".js"):
                asked.add(text)
        for key in re.findall(r'\b(?:t|inBoth)\("([^"]+)"', source):
            if key not in known:
                yield f"{shown(path)} asks for the words {key}, which no file has"
        begun |= {
            text
            for _, text in texts_in(source)
            if text.endswith((".", "-")) and text.startswith(files)
        }
    # (what speaks to the rider stands beside what speaks of the rider)
    for key in sorted(
        {it for it in known if it.endswith(" you") and it.removesuffix(" you") not in known}
    ):
        yield f"{key} speaks to the rider in place of no other words"
    for key in sorted({it.removesuffix(" you") for it in known} - asked):
        if not key.startswith(("denials.", *begun)):
            yield f"no module asks for the words {key}"


def denials_that_fail(folder):
    """A denial is made of a reply, by parts/desk.js: no other module writes one, or names one to be shown."""
    for path in modules(folder):
        if path.endswith("parts/desk.js"):
            continue
        code = "".join(
            text if kind != "string" else f'"{text}"'
            for kind, _, text in pieces(read(path))
            if kind != "comment"
        )
        for found in re.findall(r'denied: ?"[^"]|(?:keptDenialOf|denialOf)\("[^"]', code):
            yield f"{shown(path)} makes a denial: {found}"


# What keeps something in a browser, and the one module that touches it.
KEEPERS = {
    r"localStorage|sessionStorage": "parts/kept.js",
    r"indexedDB": "parts/database.js",
    r"navigator\s*\??\.\s*locks": "parts/locks.js",
}


def stores_that_fail(folder):
    """A browser may refuse each of its stores, at each look at it. So one module speaks to each, and the others to that."""
    for path in modules(folder):
        for pattern, keeper in KEEPERS.items():
            if not path.endswith(keeper):
                yield from (
                    f"{shown(path)} touches {found}, which only {keeper} does"
                    for found in sorted(set(re.findall(rf"\b(?:{pattern})\b", code_of(read(path)))))
                )


def texts_that_fail(folder):
    for path in modules(folder):
        for line, text in texts_in(read(path)):
            if is_english(text):
                yield f"{shown(path)}:{line} has a text of its own: {text.strip()[:60]!r}"


def styles(folder):
    return sorted([f"{folder}/desk.css", *glob.glob(f"{folder}/css/*.css")])


def tokens_that_fail(folder):
    """A color, a size or a shape is a token of desk.css. A name that nobody has draws nothing, and says nothing."""
    tokens = {name for path in styles(folder) for name in re.findall(r"(--[\w-]+):", read(path))}
    used = {}
    for path in styles(folder):
        for name in re.findall(r"var\((--[\w-]+)", read(path)):
            used.setdefault(name, path)
    yield from (
        f"{shown(path)} uses {name}, which no style has"
        for name, path in used.items()
        if name not in tokens
    )
    yield from (f"nothing uses the token {name}" for name in sorted(tokens - set(used)))


def names_styled(folder):
    """Each class, id and data attribute that a style selects, with the file that does."""
    found = {}
    for path in styles(folder):
        for selector in re.findall(
            r"([^{};]+)\{", re.sub(r"/\*.*?\*/", "", read(path), flags=re.S)
        ):
            if not selector.strip().startswith("@"):
                plain = re.sub(r'"[^"]*"', "", selector)
                for name in re.findall(r"(?:[.#]|\[(?=data-))(-?[a-zA-Z_][\w-]*)", plain):
                    found.setdefault(name, path)
    return found


def classes_that_fail(folder):
    """What a style selects is said by a page: whole, or by the beginning that a name is made of."""
    said, begun = set(re.findall(r"[\w-]+", read(f"{folder}/index.html"))), set()
    for path in modules(folder):
        for kind, _, text in pieces(read(path)):
            if kind in ("string", "template"):
                said |= set(re.findall(r"[\w-]+", text))
                begun |= (
                    set(re.findall(r"(?:^|\s)(\w[\w-]*-)$", text)) if kind == "template" else set()
                )
    for name, path in sorted(names_styled(folder).items()):
        if name not in said and not name.startswith(tuple(begun)):
            yield f"{shown(path)} styles {name}, which no page says"


def colors_that_fail(folder):
    """On a screen a color is a token; paper and the square of a key are black on white."""
    for path in styles(folder):
        for at, line in enumerate(read(path).split("\n"), 1):
            rule = line.split("{", 1)
            if len(rule) < 2 or "--" in rule[1] and ":root" in line:
                continue
            for found in re.findall(r"#[0-9a-fA-F]{3,8}\b|rgb\(", rule[1]):
                if found.lower() not in ("#000", "#fff", "#555", "#777"):
                    yield f"{shown(path)}:{at} has a color of its own: {found}"


COMPILER = """
const { SourceTextModule } = require("vm"), { readFileSync } = require("fs");
for (const file of process.argv.slice(1)) {
    try { new SourceTextModule(readFileSync(file, "utf8")); } catch (error) { console.log(file, String(error)); }
}
"""


def syntax_that_fails(folder):
    files = modules(folder) + glob.glob(f"{folder}/words/*/*.js")
    words = ["node", "--no-warnings", "--experimental-vm-modules", "-e", COMPILER, *files]
    told = subprocess.run(words, capture_output=True, text=True, check=False)
    yield from told.stdout.splitlines() + ([told.stderr.strip()[-300:]] if told.returncode else [])


def types_that_fail(folder):
    told = subprocess.run(["tsc", "-p", folder], capture_output=True, text=True, check=False)
    yield from (line for line in told.stdout.splitlines() if not line.startswith(" "))


CHECKS = [
    ("types", "tsc", types_that_fail),
    ("syntax", "node", syntax_that_fails),
    ("imports", "tsc", imports_that_fail),
    ("exports", "tsc", exports_that_fail),
    ("preloads", "tsc", preloads_that_fail),
    ("rules", "tsc", rules_that_fail),
    ("types of anything", "tsc", types_of_anything_that_fail),
    ("words", None, words_that_fail),
    ("keys of words", None, keys_that_fail),
    ("denials", None, denials_that_fail),
    ("stores", None, stores_that_fail),
    ("texts", None, texts_that_fail),
    ("tokens", None, tokens_that_fail),
    ("classes", None, classes_that_fail),
    ("colors", None, colors_that_fail),
]


def install():
    subprocess.run(
        ["apt-get", "install", "-y", "--no-install-recommends", "node-typescript", "nodejs"],
        check=True,
        stdout=subprocess.DEVNULL,
    )


def main():
    parser = usage_of("tests/pages_static", __doc__)
    parser.flag("--install")
    parser.takes("folder FOLDER", nargs="?", default=f"{TOP}/pages")
    words = parser.parse_args()
    folder = os.path.realpath(words.folder)
    if words.install:
        install()
    if not modules(folder):
        print(f"pages_static: {words.folder} has no modules", file=sys.stderr)
        return 2
    passed = failed = 0
    for name, program, look in CHECKS:
        if program and not shutil.which(program):
            print(f"left out, since {program} is not installed: {name}")
            continue
        faults = list(look(folder))
        for fault in faults:
            print(f"FAILED: {name}: {fault}")
        passed, failed = passed + (not faults), failed + len(faults)
    print(f"{passed} passed, {failed} failed")
    return 1 if failed else 0


if __name__ == "__main__":
    sys.exit(main())
