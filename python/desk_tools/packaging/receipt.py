"""The receipt of the proof: by what and of which sources the program was built. And the bill of what is linked in."""
import os
import re
import subprocess
from collections.abc import Callable
from typing import Any

from desk_tools.build import built, sources
from desk_tools.demo import mark


Proof = dict[str, Any]


def kits_crates(kit: str, named: set[str]) -> list[str]:
    """The kit's crates below those that are named, with std, by what the kit says of each."""
    found: set[str] = set()
    waiting = [*named, "std"]
    while waiting:
        crate = waiting.pop()
        path = f"{kit}/rlibs/{crate}.rlib/format"
        if crate not in found and os.path.isfile(path):
            found.add(crate)
            with open(path, encoding="utf-8", errors="replace") as file:
                waiting += re.findall(r"(?m)^dep (\w+)$", file.read())
    return sorted(found)


def commit_of(top: str) -> str | None:
    ran = subprocess.run(
        ["git", "-C", top, "rev-parse", "HEAD"], capture_output=True, text=True, check=False
    )
    return ran.stdout.strip() or None


def receipt(top: str, program: str, kits_line: str | None) -> Proof:
    """What the package says of its program. `kits_line` is None where bin/desk built it; else the program is for trial."""
    is_proved = kits_line is None
    line = built.note(top)["kit"] if kits_line is None else kits_line
    of_sources = {
        "sha256": sources.digest(top),
        "files": len(sources.files(top)),
        "commit": commit_of(top),
    }
    return {
        "program": {"sha256": sources.digest_of(program), "bytes": os.path.getsize(program)},
        "proved": is_proved,
        "kit": {"line": line, "logic": built.logic_in(line)},
        "logic_in_program": mark.logic_of(program),
        "sources": of_sources if is_proved else None,
        "functions_proved": built.functions_proved(top) if is_proved else None,
        "made_of": "sha256sum of crates.txt, HANDLES and crates/*/{src,specs,proofs} in the order of their names, and the "
        "sha256 of that list; bin/package --check FILE makes it anew",
    }


def spdx_of(name: str, license_of: str, kind: str) -> dict[str, Any]:
    return {
        "SPDXID": f"SPDXRef-{kind}-{name.replace('_', '-')}",
        "name": name,
        "downloadLocation": "NOASSERTION",
        "filesAnalyzed": False,
        "licenseConcluded": license_of,
        "licenseDeclared": license_of,
        "copyrightText": "NOASSERTION",
    }


def bill(
    top: str, kit: str, version: str, made: str, licences: Callable[[str], str], proof: Proof
) -> Proof:
    """The SPDX document of what is linked into the program."""
    own, named = sources.crates_of(top)
    packages = [
        {
            **spdx_of("desk", "Apache-2.0", "Program"),
            "versionInfo": version,
            "checksums": [{"algorithm": "SHA256", "checksumValue": proof["program"]["sha256"]}],
        }
    ]
    packages += [spdx_of(it, "Apache-2.0", "Crate") for it in sorted(own)]
    packages += [
        {**spdx_of(it, licences(it), "Kit"), "versionInfo": proof["kit"]["line"] or "NOASSERTION"}
        for it in kits_crates(kit, named)
    ]
    packages.append(spdx_of("libc6", "LGPL-2.1-or-later", "System"))
    links = [
        {
            "spdxElementId": "SPDXRef-Program-desk",
            "relatedSpdxElement": it["SPDXID"],
            "relationshipType": "DYNAMIC_LINK" if it["name"] == "libc6" else "STATIC_LINK",
        }
        for it in packages[1:]
    ]
    return {
        "spdxVersion": "SPDX-2.3",
        "dataLicense": "CC0-1.0",
        "SPDXID": "SPDXRef-DOCUMENT",
        "name": f"desk-{version}",
        "documentNamespace": f"https://chervilnook.example/spdx/desk-{version}-{proof['program']['sha256'][:16]}",
        "creationInfo": {"created": made, "creators": ["Tool: bin/package"]},
        "packages": packages,
        "relationships": [
            {
                "spdxElementId": "SPDXRef-DOCUMENT",
                "relatedSpdxElement": "SPDXRef-Program-desk",
                "relationshipType": "DESCRIBES",
            },
            *links,
        ],
    }
