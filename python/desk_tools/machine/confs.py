"""Files of settings, a NAME=VALUE each line: one value changes, and all else stays where it is."""

import re


def with_value(text: str, name: str, value: str | None) -> str:
    """The text with this value of a name, in the place of the old one, else at the end; None takes the name away."""
    line = "" if value is None else f"{name}={value}\n"
    lines = text.splitlines(keepends=True)
    if lines and not lines[-1].endswith("\n"):
        lines[-1] += "\n"
    found = [at for at, it in enumerate(lines) if re.match(rf"{re.escape(name)}=", it)]
    for at in found:
        lines[at] = ""
    if found:
        # (the last one counted)
        lines[found[-1]] = line
    else:
        lines.append(line)
    return "".join(lines)


def value_in(text: str, name: str) -> str | None:
    """The last value of a name, or None."""
    found = re.findall(rf"(?m)^{re.escape(name)}=(.*)$", text)
    return found[-1].strip() if found else None
