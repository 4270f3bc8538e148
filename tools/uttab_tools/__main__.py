"""Runs the command of a name: `python3 -m uttab_tools NAME WORDS`."""

import importlib
import sys

# The commands, by name, and the module of each, which has a `main`.
COMMANDS = {
    "best_of_seeds": "seeds",
    "calendars": "calendars",
    "close_rooms": "close_rooms",
    "closures": "closures",
    "compare": "compare",
    "desk": "desk.command",
    "fet": "fet.command",
    "itc2019": "competition",
    "midterm": "midterm.command",
    "page": "page",
    "sheets": "sheets.command",
    "table": "table",
    "timetable": "replies",
    "teachers": "teachers",
}


def main(words: list[str]) -> int:
    if not words or words[0] not in COMMANDS:
        print(f"uttab_tools: the first word is one of: {', '.join(COMMANDS)}", file=sys.stderr)
        return 2
    module = importlib.import_module(f"uttab_tools.{COMMANDS[words[0]]}")
    status: int = module.main(words[1:])
    return status


if __name__ == "__main__":
    sys.exit(main(sys.argv[1:]))
