"""Makes a problem of sheets, which any spreadsheet saves as CSV, and writes a problem as sheets.

    sheets read FOLDER -o problem.json
    sheets write PROBLEM --to FOLDER

FOLDER has the sheets term.csv, rooms.csv, classes.csv and times.csv, and may have travel.csv, closed.csv, rules.csv and
students.csv. The first line of each has the names of its columns. docs/TOOLS.md says what stands in them."""

import argparse

from uttab_tools.problem import Problem
from uttab_tools.program import DONE, Command, Folder, Output, add_output
from uttab_tools.sheets.reading import problem_of
from uttab_tools.sheets.writing import sheets_of


def words(parser: argparse.ArgumentParser) -> None:
    forms = parser.add_subparsers(metavar="FORM", required=True)
    text = "makes a problem of sheets"
    form = forms.add_parser("read", help=text, description=text)
    form.add_argument("folder", metavar="FOLDER", help="the folder with the sheets")
    add_output(form)
    form.set_defaults(does=_read)
    text = "writes a problem as sheets"
    form = forms.add_parser("write", help=text, description=text)
    form.add_argument("problem", metavar="PROBLEM", help="the problem file")
    form.add_argument("--to", dest="folder", metavar="FOLDER", required=True, help="the folder for the sheets")
    form.set_defaults(does=_write, output=None)


def run(given: argparse.Namespace, output: Output) -> int:
    given.does(given, output)
    return DONE


def _read(given: argparse.Namespace, output: Output) -> None:
    output.write_json(problem_of(given.folder))


def _write(given: argparse.Namespace, output: Output) -> None:
    sheets = sheets_of(Problem(given.problem))
    with Folder(given.folder) as folder:
        for name, text in sheets.items():
            folder.write(name, text.encode())


COMMAND = Command("sheets", __doc__ or "", words, run, "0 all is written", has_forms=True)
main = COMMAND.main
