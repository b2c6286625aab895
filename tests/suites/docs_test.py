"""Looks whether the pages name what is there: `docs_test [TREE]`, TREE this repository where none is given.

A page is a file in Markdown. Each link in it leads
somewhere, and what has the form of a path in its backquotes and blocks is a file or a folder, from the top, from the
page's folder, from crates/ or from a crate. Each `pt_` name is a crate of crates.txt. A name that is said to be in a file, as
`standing` in `pt_rights_files/src/case_file.rt`, is there. Each line of the index of docs/RULES.md names a definition and a
function, which their files declare, and a conversation. The twenty questions of tests/README.md are answered where they
say. A page has at most 18 words a sentence on average, and no sentence of more than 40, in its tables neither. It has
none of the words of UNWANTED, and its text ends at WIDEST columns. A page of more than twice its MOST_BYTES is named.
Each name in a line of crates.txt is used by its crate. The faults of docs/FORMATS.md and of the program's help have the
words of `Cause`. What can be counted in the tree is counted on one page, and right.
tests/README.md names each script of tests/ and each deploy/try. The last line is 'N passed, M failed', and the exit status is 1 where something failed.
"""
import functools
import os
import re
import sys

from desk_tools.tree import TOP
from conversations import KINDS
from serving import tally

HERE = f"{TOP}/tests"
MOST_BYTES = {"README.md": 8192, "docs/ARCHITECTURE.md": 20480, "tests/README.md": 10240}
MOST_WORDS_ON_AVERAGE, MOST_WORDS = 18, 40
# Columns of a line of text. A line of code or of a table may have more.
WIDEST = 100
# Words for which there are better ones: zero, out of memory, earlier, releases, depends on.
UNWANTED = re.compile(r"\b(nought|want of memory|of before|lets? go of|hangs? on)\b", re.I)
QUESTIONS = 20
RULES, QUESTIONS_PAGE, CONVERSATIONS = "docs/RULES.md", "tests/README.md", "tests/rehearsals"
# What is made by a run or by bin/package, and no part of the tree.
MADE = {".git", "out", "__pycache__", "RUNNING.md"}
# Parts of a path that the reader replaces.
PLACEHOLDERS = {"NAME", "AGENCY", "F", "my"}
PARTS_OF_CRATES = {"src", "specs", "proofs", "must-fail"}
PATH = re.compile(r"[\w.@-]+(/[\w.@-]+)*/?")
EXTENSIONS = set(
    """
    .rt .antt .md .program .requests .replies .edit .service .timer .nginx .yaml
    """.split()
)
CODE = re.compile(r"^```.*?^```$|(?<!`)`[^`\n]+(?:\n[^`\n]+)?`(?!`)", re.M | re.S)
LINK = re.compile(r"\[[^\]\n]*\]\(([^)#\s]*)(#[^)\s]*)?\)")
# A name and the file that is to have it.
NAMED = re.compile(r"`([A-Za-z_][\w:]*)`\s+(?:in\s+|\()`([\w./-]+\.(?:rt|antt))`")
DECLARATION = {
    ".rt": r"\bfn {0}\b",
    ".antt": r"^(?:abbrev |pub |record |data )+{0}\b",
}
# A place in the index and what it declares: rights/Standing: `standing_of`, `is_presumed`.
PLACE = re.compile(r"(\w+)/([\w/]+): (`\w+`(?:, `\w+`)*)")


class Tree:
    """The files of a repository, by their paths from its top."""

    def __init__(self, top):
        self.top = top
        self.files, self.folders = set(), set()
        for folder, folders, names in os.walk(top):
            folders[:] = [it for it in folders if it not in MADE]
            at = os.path.relpath(folder, top)
            self.folders.add(at)
            self.files.update(os.path.normpath(f"{at}/{it}") for it in names)
        self.crates = set(re.findall(r"(?m)^(pt_\w+):", self.text("crates.txt")))
        self.tops = {it.partition("/")[0] for it in self.files if "/" in it}
        self.names = {os.path.basename(it) for it in self.files}

    @functools.lru_cache(maxsize=None)
    def text(self, path):
        with open(f"{self.top}/{path}", encoding="utf-8") as file:
            return file.read()

    def has(self, path):
        return path in self.files or path in self.folders

    def pages(self):
        return sorted(it for it in self.files if it.endswith(".md"))

    def found(self, name, page):
        """The paths that a name of a page may mean and that are there."""
        name = name.rstrip("/")
        bases = [".", os.path.dirname(page) or ".", "crates", CONVERSATIONS]
        if name.partition("/")[0] in PARTS_OF_CRATES:
            bases += [f"crates/{it}" for it in sorted(self.crates)]
        paths = [os.path.normpath(f"{base}/{name}") for base in bases]
        if "/" not in name and name in self.names:
            paths += [it for it in self.files if os.path.basename(it) == name]
        return [it for it in dict.fromkeys(paths) if self.has(it)]

    def is_path(self, word):
        """Whether a word has the form of a path of this tree, and is none of what a run makes."""
        if (
            not PATH.fullmatch(word)
            or {*word.split("/")} & MADE
            or {*re.split(r"[/.@-]", word)} & PLACEHOLDERS
        ):
            return False
        first, inner, _ = word.partition("/")
        return (
            first in self.tops | self.crates | PARTS_OF_CRATES
            if inner
            else os.path.splitext(word)[1] in EXTENSIONS
        )


def lines_of(text, found):
    """The number of the line where a match begins."""
    return text.count("\n", 0, found.start()) + 1


def slug(heading):
    """A heading as links name it."""
    return re.sub(r"[^\w\- ]", "", heading.strip().lower()).replace(" ", "-")


# What pages name.


def faults_of_links(tree, page):
    text = re.sub(r"(?ms)^```.*?^```$", lambda it: "\n" * it[0].count("\n"), tree.text(page))
    for link in LINK.finditer(text):
        path, anchor = link[1], link[2]
        if re.match(r"[a-z]+:", path):
            continue
        target = os.path.normpath(os.path.join(os.path.dirname(page), path)) if path else page
        headings = (
            re.findall(r"(?m)^#+ (.*)$", tree.text(target))
            if target in tree.files and anchor
            else []
        )
        if not tree.has(target) or anchor and anchor[1:] not in map(slug, headings):
            yield f"{page}:{lines_of(text, link)}: the link {link[0]} leads nowhere"


def faults_of_paths(tree, page):
    text = tree.text(page)
    for code in CODE.finditer(text):
        for word in code[0].strip("`").split():
            # (the agency main's unit is an instance of a template, which is the file)
            word = word.strip("'\",;:()").rstrip(".").replace("@main.", "@.")
            if tree.is_path(word) and not tree.found(word, page):
                yield f"{page}:{lines_of(text, code)}: there is no {word}"


def faults_of_crates(tree, page):
    text = tree.text(page)
    for name in re.finditer(r"\bpt_[a-z]+(?:_[a-z]+)*\b(?!_)", text):
        if name[0] not in tree.crates:
            yield f"{page}:{lines_of(text, name)}: there is no crate {name[0]}"


def faults_of_names(tree, page):
    text = tree.text(page)
    for named in NAMED.finditer(text):
        last_part = re.compile(rf"\b{named[1].rpartition('::')[2]}\b")
        paths = tree.found(named[2], page)
        if paths and not any(last_part.search(tree.text(it)) for it in paths):
            yield f"{page}:{lines_of(text, named)}: {named[2]} has no {named[1]}"


def faults_of_page(tree, page):
    """For the page as a whole None, or each thing that it names and that is not there."""
    kinds = (faults_of_links, faults_of_paths, faults_of_crates, faults_of_names)
    faults = [it for kind in kinds for it in kind(tree, page)]
    yield from faults or [None]


# The index and the questions.


def rows_below(text, heading):
    """The rows of the tables below a heading, each as its cells, without the tables' heads."""
    below = re.search(rf"(?ms)^## {heading}.*?(?=^## |\Z)", text)
    lines = below[0].split("\n") if below else []
    rows = [
        line
        for above, line in zip(lines, lines[1:])
        if line.startswith("| ") and above.startswith("|")
    ]
    return [[cell.strip() for cell in re.split(r" \| ", row.strip("| "))] for row in rows]


def is_declared(tree, name, path):
    if path not in tree.files:
        return False
    declaration = DECLARATION[os.path.splitext(path)[1]].format(re.escape(name))
    return bool(re.search(declaration, tree.text(path), re.M))


def fault_of_index(tree, row):
    """What a line of the index names and what is not there, or None."""
    if len(row) != 5:
        return f"has {len(row)} cells in place of 5"
    for kind, cell in zip(("specs/{}.antt", "src/{}.rt"), row[2:4]):
        for part in cell.split("; "):
            place = PLACE.fullmatch(part)
            if not place:
                return f"has '{part}' in place of a file and its names"
            path = f"crates/pt_{place[1]}/{kind.format(place[2])}"
            lost = [it for it in re.findall(r"\w+", place[3]) if not is_declared(tree, it, path)]
            if lost:
                return f"has {', '.join(lost)} in {path}, and it is not there"
    shown = re.findall(r"`([\w./-]+)`", row[4])
    if not shown:
        return "names no conversation"
    missing = [it for it in shown if not tree.has(it) and not is_conversation(tree, it)]
    return f"has {', '.join(missing)}, and there is none" if missing else None


def conversations_of(tree):
    """The conversations that have requests, by their paths without an ending."""
    names = (os.path.splitext(it) for it in tree.files if it.startswith(f"{CONVERSATIONS}/"))
    return {name for name, ending in names if ending in KINDS}


def is_conversation(tree, name):
    path = f"{CONVERSATIONS}/{name}"
    return path in conversations_of(tree) and {f"{path}.out", f"{path}.txt"} <= tree.files


def faults_of_index(tree):
    rows = rows_below(tree.text(RULES), "Index")
    if not rows:
        yield f"{RULES} has no index"
    for row in rows:
        fault = fault_of_index(tree, row)
        yield fault and f"{RULES}: the line '{row[0]}' of the index {fault}"


def in_one_line(text):
    return " ".join(text.split()).casefold()


def fault_of_question(tree, row):
    """Why a question is not answered where its row says, or None."""
    if len(row) != 4:
        return f"has {len(row)} cells in place of 4"
    path, searched = row[2].strip("`"), row[1].strip("`")
    if path not in tree.files:
        return f"is answered in {path}, which is not there"
    text = in_one_line(tree.text(path))
    lost = [it for it in (searched, row[3].strip('"')) if in_one_line(it) not in text]
    return f"is answered by '{lost[0]}', which {path} does not have" if lost else None


def faults_of_questions(tree):
    rows = (
        rows_below(tree.text(QUESTIONS_PAGE), "Twenty questions")
        if QUESTIONS_PAGE in tree.files
        else []
    )
    if len(rows) != QUESTIONS:
        yield f"{QUESTIONS_PAGE} has {len(rows)} questions in place of {QUESTIONS}"
    for row in rows:
        fault = fault_of_question(tree, row)
        yield fault and f"{QUESTIONS_PAGE}: '{row[0]}' {fault}"


# How pages read, how large they are, and what stands in two places.


def bytes_of(tree, page):
    return len(tree.text(page).encode())


def faults_of_size(tree):
    """A page of more than twice what it is meant to have is named, and does not fail."""
    for page, most in MOST_BYTES.items():
        size = bytes_of(tree, page)
        if size > 2 * most:
            print(f"warning: {page} has {size} bytes, and {most} are meant")
        yield None


def prose_of(text):
    """The paragraphs and lists of a page, without blocks of code, tables and headings."""
    lines = re.sub(r"(?s)```.*?```", "\n", text).split("\n")
    return "\n".join(
        "" if it.lstrip().startswith(("|", "#")) or it.startswith("    ") else it for it in lines
    )


def cells_of(text):
    """The cells of the tables of a page."""
    return [
        cell
        for row in text.split("\n")
        if row.startswith("|")
        for cell in re.split(r" \| ", row.strip("| "))
    ]


def sentences_of(text, ends):
    """The sentences of a text, each as its words. One also ends with a paragraph or an item of a list."""
    parts = re.split(rf"(?<=[{ends}])[\"')*]*\s+|\n\s*(?:[-*]|\d+\.)\s+|\n\n+", text)
    return [it.split() for it in parts if len(it.split()) > 2]


def fault_of_reading(tree, page):
    """Why a page is hard to read, or None."""
    text = tree.text(page)
    unwanted = UNWANTED.search(re.sub(CODE, "", text))
    if unwanted:
        return f"{page}: there is a better word for '{unwanted[0]}'"
    # On average a colon ends a sentence, as after the name of what is explained. The longest one goes on after it.
    sentences, prose = sentences_of(prose_of(text), ".!?:"), [prose_of(text), *cells_of(text)]
    longest = max((words for it in prose for words in sentences_of(it, ".!?")), key=len, default=[])
    if len(longest) > MOST_WORDS:
        return f"{page}: {len(longest)} words in the sentence that begins '{' '.join(longest[:8])}'"
    mean = sum(map(len, sentences)) / max(len(sentences), 1)
    return (
        f"{page}: {mean:.1f} words a sentence on average" if mean > MOST_WORDS_ON_AVERAGE else None
    )


def names_in_sources(tree, crate):
    """The libraries that the sources of a crate name."""
    folders = tuple(f"crates/{crate}/{it}/" for it in ("src", "specs", "proofs"))
    names = set()
    for path in tree.files:
        if path.startswith(folders) and path.endswith((".rt", ".antt")):
            names.update(
                re.findall(
                    r"\bRattle\.(\w+)|\b([a-z]\w*)::|^\s*(?:pub )?use (\w+);", tree.text(path), re.M
                )
            )
    return {name for found in names for name in found if name}


def faults_of_crate_lines(tree):
    for crate, names in re.findall(r"(?m)^(pt_\w+):(.*)$", tree.text("crates.txt")):
        used = names_in_sources(tree, crate)
        unused = [it for it in names.split() if it not in used]
        yield f"crates.txt: {crate} does not use {', '.join(unused)}" if unused else None


def faults_of_codes(tree):
    """For each cause of a fault None, or that its words are not those of docs/FORMATS.md or of the program's help."""
    causes = tree.text("crates/pt_base_values/src/fault.rt")
    words = dict(re.findall(r'Cause::(\w+) => "([^"]+)"', causes))
    rows, helped = tree.text("docs/FORMATS.md"), tree.text(
        "crates/pt_app_command_line/src/words.rt"
    )
    codes = re.findall(r"Cause::(\w+) => (\d+),", causes)
    yield None if codes else "crates/pt_base_values/src/fault.rt has no codes of faults"
    for cause, code in codes:
        is_row = re.search(rf"^\| {code} \| {re.escape(words[cause])}(?![\w])", rows, re.M)
        is_line = re.search(rf"^{code} {re.escape(words[cause])}(?:\\n\\|\";)$", helped, re.M)
        yield None if is_row and is_line else f"fault {code} is not '{words[cause]}' in docs/FORMATS.md or in the help"


def counted(tree):
    """What pages count, with the right number."""
    mutants = [it for it in tree.files if "/must-fail/" in it and it.endswith(".edit")]
    return {
        "conversations": len(conversations_of(tree)),
        "crates": len(tree.crates),
        "mutants": len(mutants),
    }


def faults_of_counts(tree):
    for kind, right in counted(tree).items():
        places = [
            (page, int(found.replace(",", "")))
            for page in tree.pages()
            if page != "CHANGELOG.md"
            for found in re.findall(rf"\b([1-9][\d,]+) {kind}\b", tree.text(page))
        ]
        said = ", ".join(f"{number} in {page}" for page, number in places)
        bad = len(places) > 1 or any(number != right for _, number in places)
        yield f"{right} {kind} are counted on more than one page, or wrong: {said}" if bad else None


def faults_of_figures(tree):
    """For each row of README's table of lines None, or that it is not the count to the thousand."""
    text = tree.text("README.md")
    rows = {"code with contracts": ("src",), "definitions and proofs": ("specs", "proofs")}
    for row, folders in rows.items():
        lines = sum(
            tree.text(it).count("\n")
            for it in tree.files
            if it.startswith("crates/") and it.split("/")[2:3] and it.split("/")[2] in folders
        )
        wanted = f"| {row} | {1000 * round(lines / 1000):,} lines |"
        yield None if wanted in text else f"README.md has no row '{wanted}'"


def faults_of_scripts(tree):
    """For each script of tests/ and each deploy/try None, or that no line of tests/README.md is about it."""
    text = tree.text(QUESTIONS_PAGE)
    for path in sorted(tree.files):
        is_there = os.path.dirname(path) == "tests" or path.startswith("deploy/try")
        if is_there and os.access(f"{tree.top}/{path}", os.X_OK):
            yield None if re.search(
                rf"`{path}\b(?!-)", text
            ) else f"{QUESTIONS_PAGE} does not name {path}"


def faults_of_recipes(tree):
    """Driving times go into an agency's file with a line of the record, and no agency takes over the example's town."""
    for page in sorted(tree.pages()):
        for at, line in enumerate(tree.text(page).split("\n"), 1):
            if "desk travel /var/lib/desk" in line:
                yield f"{page}:{at}: driving times without a line of the record: bin/journal travel gives them with one"
            if re.search(r"\b(?:cp|install)\b.* pages/agency\.json /etc/desk", line):
                yield f"{page}:{at}: the example's town, with its zone and places, becomes an agency's"
    yield None


def fault_of_width(tree, page):
    """None, or the lines of a page's sentences that could end sooner. Code and tables may be wider."""
    wide, is_code = [], False
    for at, line in enumerate(tree.text(page).split("\n"), 1):
        if line.lstrip().startswith(("```", "~~~")):
            is_code = not is_code
        if is_code or len(line) <= WIDEST or re.match(r" {4}(?! *([-*]|\d+\.) )|\s*[|#<]", line):
            continue
        whole = re.sub(r"`[^`]+`", lambda code: code[0].replace(" ", "_"), line.strip())
        if " " in re.sub(r"^([-*]|\d+\.) +", "", whole)[:WIDEST]:
            wide.append(str(at))
    return f"{page}: lines {', '.join(wide)} are wider than {WIDEST} columns" if wide else None


def faults(tree):
    for page in tree.pages():
        yield from faults_of_page(tree, page)
        yield fault_of_reading(tree, page)
        yield fault_of_width(tree, page)
    yield from faults_of_index(tree)
    yield from faults_of_questions(tree)
    yield from faults_of_size(tree)
    yield from faults_of_crate_lines(tree)
    yield from faults_of_codes(tree)
    yield from faults_of_counts(tree)
    yield from faults_of_figures(tree)
    yield from faults_of_scripts(tree)
    yield from faults_of_recipes(tree)


def main(words):
    if len(words) > 1 or words and not os.path.isfile(f"{words[0]}/crates.txt"):
        print(__doc__, end="", file=sys.stderr)
        return 2
    return tally(
        "tests/docs_test",
        faults(Tree(os.path.abspath(words[0] if words else os.path.dirname(HERE)))),
    )


if __name__ == "__main__":
    sys.exit(main(sys.argv[1:]))
