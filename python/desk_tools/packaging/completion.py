"""Completion of bash, made of what each command says of itself."""
import re

HEAD = """# Completes the words of the desk's commands. bin/package made it of each command's --help.
_desk()
{
    local words
    case "${COMP_WORDS[0]##*/} ${COMP_WORDS[1]}" in
"""
TAIL = """    *) return ;;
    esac
    case "${COMP_WORDS[COMP_CWORD]}" in
    -*) mapfile -t COMPREPLY < <(compgen -W "$words" -- "${COMP_WORDS[COMP_CWORD]}") ;;
    *) [ "$COMP_CWORD" -ne 1 ] || mapfile -t COMPREPLY < <(compgen -W "$words" -X '-*' -- "${COMP_WORDS[1]}") ;;
    esac
}
"""
# A word of a command, as argparse lists it and as the program does.
WORDS = re.compile(r"(?m)^(?:    |  )([a-z][a-z-]+) {2,}\S")
LISTED = re.compile(r"(?ms)^(?:positional arguments|Commands|commands):\n(.*?)(?:\n\n|\Z)")


def options_in(text: str) -> list[str]:
    """The long options that a help names."""
    return sorted({"--help", *re.findall(r"(?m)^ +(?:-\w, )?(--[a-z][a-z-]+)", text)})


def words_in(text: str) -> list[str]:
    """The words of a command of which each has a help of its own."""
    found = LISTED.search(text)
    return WORDS.findall(found[1]) if found else []


def script(helps: dict[str, tuple[str, dict[str, str]]]) -> str:
    """The script, from each command's help and those of its words: name -> (help, {word: help})."""
    lines = []
    for name, (text, inner) in sorted(helps.items()):
        for word, said in sorted(inner.items()):
            lines.append(f"    '{name} {word}') words='{' '.join(options_in(said))}' ;;\n")
        lines.append(
            f"    '{name} '*) words='{' '.join([*sorted(inner), *options_in(text)])}' ;;\n"
        )
    complete = f"complete -o default -F _desk {' '.join(sorted(helps))}\n"
    return f"{HEAD}{''.join(lines)}{TAIL}{complete}"
