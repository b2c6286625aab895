"""Manual pages, made of what a program says of itself and of a document."""
import re


def escaped(text: str) -> str:
    """Text as roff has it."""
    text = text.replace("\\", "\\e").replace("-", "\\-")
    return re.sub(r"(?m)^([.'])", r"\\&\1", text)


def heading(name: str, section: int, day: str, version: str) -> str:
    return f'.TH {name.upper()} {section} {day} "desk {version}" "The desk"\n'


def verbatim(text: str) -> str:
    return f".PP\n.nf\n{escaped(text)}\n.fi\n"


def purpose_of(text: str) -> str:
    """What a command is for, in some words, from the first sentence of its help."""
    said = re.sub(r"(?s)\Ausage: .*?\n\n", "", text)
    said = " ".join(said.partition("\n\n")[0].split())
    said = re.sub(r"^(?:bin/|desk-)[\w-]+: ", "", said)
    first = re.split(r"[.:;](?: |$)| \(|, (?:from|and|of|as|so|which|by|with) ", said)[0]
    return first[:1].lower() + first[1:]


def of_help(
    name: str, section: int, text: str, inner: dict[str, str], day: str, version: str, also: str
) -> str:
    """The page of a command, from its help and those of its words."""
    words = "".join(f".SS {name} {word}\n{verbatim(said.strip())}" for word, said in inner.items())
    more = f".SH COMMANDS\n{words}" if words else ""
    return (
        f"{heading(name, section, day, version)}.SH NAME\n{name} \\- {escaped(purpose_of(text))}\n.SH DESCRIPTION\n"
        f"{verbatim(text.strip())}{more}.SH SEE ALSO\n{escaped(also)}\n"
    )


def plain(text: str) -> str:
    """A line of Markdown without its marks."""
    text = re.sub(r"\*\*(.+?)\*\*", r"\1", text)
    return re.sub(r"\[([^]]+)\]\([^)]+\)", r"\1", text).replace("`", "")


def of_markdown(name: str, section: int, purpose: str, text: str, day: str, version: str) -> str:
    """The page of a document: its headings, paragraphs, tables and examples."""
    page = [heading(name, section, day, version), f".SH NAME\n{name} \\- {escaped(purpose)}\n"]
    blocks = re.split(r"\n{2,}", re.sub(r"(?s)^# .*?\n", "", text))
    for block in filter(None, (it.strip("\n") for it in blocks)):
        title = re.match(r"(#+) (.*)", block)
        if title:
            page.append(f"{'.SH' if len(title[1]) == 2 else '.SS'} {escaped(plain(title[2]))}\n")
        elif block.startswith(("|", "    ", "```", "- ")):
            page.append(
                verbatim(block if block.startswith("    ") else plain(block.replace("```", "")))
            )
        else:
            page.append(f".PP\n{escaped(plain(block))}\n")
    return "".join(page)
