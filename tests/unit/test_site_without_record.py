"""deploy/site over a machine that has no Lua in nginx: the settings name nothing that is not there."""

import re
from pathlib import Path

from desk_tools.commands import site

TOP = Path(__file__).resolve().parents[2]


def settings() -> str:
    text: str = site.without_record((TOP / "deploy" / "desk.nginx").read_text(encoding="utf-8"))
    return text


def test_no_lua_is_left_and_no_variable_without_its_meaning() -> None:
    text = settings()
    assert not re.search(r"(?m)^ *\w+_by_lua_", text)
    assert not re.search(r"\$desk_(line|reader|told|reply)\b", text)
    for name in set(re.findall(r"\$(desk_\w+)\b", text)):
        assert re.search(rf"(?m)^ *(map .*|set |auth_request_set )\${name}\b", text), name
