"""The licences of the kit's parts that are in the program, as the kit has them."""
import glob
import os

SIGNS = [
    ("Permission is hereby granted, free of charge", "MIT"),
    ("Apache License", "Apache-2.0"),
    ("UNICODE LICENSE", "Unicode-3.0"),
    ("Boost Software License", "BSL-1.0"),
    ("Redistribution and use", "BSD-3-Clause"),
]


def files_of(kit: str, crate: str) -> list[str]:
    return sorted(glob.glob(f"{kit}/rattle/{crate}/LICENSE*"))


def text_of(path: str) -> str:
    with open(path, encoding="utf-8", errors="replace") as file:
        return file.read()


def identifier(path: str) -> str | None:
    """The SPDX name of a licence's text, or nothing."""
    text = text_of(path)
    return next((name for sign, name in SIGNS if sign.lower() in text.lower()), None)


def of_crate(kit: str, crate: str) -> str:
    """The SPDX expression of a crate. Of MIT and Apache together one may choose; all others hold together."""
    names = sorted({identifier(it) or "NOASSERTION" for it in files_of(kit, crate)})
    if not names or "NOASSERTION" in names:
        return "NOASSERTION"
    if {"MIT", "Apache-2.0"} <= set(names):
        return " AND ".join(["(MIT OR Apache-2.0)", *sorted(set(names) - {"MIT", "Apache-2.0"})])
    return " AND ".join(names)


def copyright_text(kit: str, crates: list[str]) -> str:
    """debian/copyright: what stands over all, and each part of the kit with its licence's own text."""
    lines = [
        "This package has the program `desk` of Chervilnook, under the Apache License 2.0, which is in",
        "/usr/share/common-licenses/Apache-2.0. Copyright 2026 the authors of Chervilnook.",
        "",
        "The parts below are linked into the program /usr/bin/desk. They come from the Rattle kit.",
        "",
    ]
    seen: dict[str, str] = {}
    for crate in crates:
        paths = files_of(kit, crate)
        if not paths:
            lines.append(f"{crate}: the kit has no licence file of it.")
        for path in paths:
            text = text_of(path).strip()
            label = f"{crate}, {os.path.basename(path)}"
            if "apache license" in text.lower()[:400] and "version 2.0" in text.lower()[:400]:
                lines += [
                    f"{label}: the Apache License 2.0, in /usr/share/common-licenses/Apache-2.0."
                ]
            elif text in seen:
                lines += [f"{label}: the same text as of {seen[text]}."]
            else:
                seen[text] = label
                lines += ["", f"{label}:", "", text, ""]
    return "\n".join(lines) + "\n"
