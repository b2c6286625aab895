"""What commands say of their arguments, and what argparse makes of it."""
from desk_tools.arguments import usage_of


def test_the_name_and_the_name_of_the_value_stand_in_one_text() -> None:
    usage = usage_of("bin/any", "Does it.\n  The second line keeps its blanks.")
    usage.takes("copy COPY.db", "the copy")
    usage.takes("--first-day DAY", "the first day", dest="first", default="today")
    usage.takes("--zone")
    usage.flag("--plan", "does nothing")
    shown = usage.format_help()
    assert "--first-day DAY" in shown and "COPY.db" in shown and "--zone ZONE" in shown
    assert "\n  The second line keeps its blanks." in shown
    given = vars(usage.parse_args(["desk-1.db", "--plan"]))
    assert given == {"copy": "desk-1.db", "first": "today", "zone": None, "plan": True}


def test_commands_of_a_command_say_theirs_alike() -> None:
    usage = usage_of("bin/any", None)
    one = usage.add_subparsers(required=True, metavar="COMMAND").add_parser("one", help="one")
    one.takes("--rows COUNT", "how many", type=int)
    assert usage.parse_args(["one", "--rows", "7"]).rows == 7
