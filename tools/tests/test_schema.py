"""Tests of the schemas: every problem and published file of the worked cases is accepted or refused as `uttab`
does it, but for what a schema can't say."""

import json
import re
from collections.abc import Iterator
from pathlib import Path
from typing import Any

import pytest
from conftest import DATA, SCHEMAS, WORKED_CASES, Tool, needs_cases

from uttab_tools import limits

jsonschema = pytest.importorskip("jsonschema", reason="there is no python3-jsonschema")

# Faults that a schema can't find: ids that stand twice, unknown references, and those of these cases. In the last
# case the file has another fault, which it does find.
UNSEEN_NUMBERS = {33, 34}
UNSEEN_CASES = {
    "reading/a_number_with_a_point",  # 1.0, which a schema takes for a whole number
    "reading/a_week_too_few", "reading/an_end_past_the_last_slot", "reading/a_start_at_its_upper_end",
    "reading/shape_comes_before_references", "reading/too_many_links", "reading/too_many_seats",
}
SEEN_CASES = {"publishing/the_id_is_read_first"}
NAMES = ("problem_schema.json", "published_schema.json")


def schema(name: str) -> Any:
    return json.loads((SCHEMAS / name).read_text(encoding="utf-8"))


def validator(value: Any) -> Any:
    return jsonschema.Draft202012Validator(value)


@pytest.mark.parametrize("name", NAMES)
def test_the_schemas_are_schemas(name: str) -> None:
    jsonschema.Draft202012Validator.check_schema(schema(name))


@needs_cases
def test_the_worked_cases() -> None:
    assert WORKED_CASES is not None
    problem, published = (validator(schema(name)) for name in NAMES)
    told = {}
    for part in re.split(r"^case ", (WORKED_CASES / "stdout").read_text(encoding="utf-8", errors="replace"), flags=re.M)[1:]:
        name, _, rest = part.partition("\n")
        told[name] = rest.partition("\n")[0]
    judged: dict[tuple[str, Path], bool] = {}  # a file of many cases is judged once
    seen = 0
    for line in (WORKED_CASES / "data/cases.txt").read_text(encoding="utf-8").splitlines():
        words = line.split()
        if not words or words[0].startswith("#") or words[1:2] not in (["run"], ["check"]):
            continue
        for kind, place, judge in (("problem", 2, problem), ("published", 4, published)):
            if len(words) <= place or len(words) > 5:
                continue
            paths = [WORKED_CASES / "data" / words[0] / words[place], WORKED_CASES / "data" / words[place]]
            path = next((path for path in paths if path.exists()), None)
            refused = re.match(rf"{kind} refused (\d+)", told.get(words[0], ""))
            number = int(refused[1]) if refused else 0
            if path is None:
                continue
            try:
                value = json.loads(path.read_bytes())
            except (ValueError, RecursionError):
                assert number == 30, line
                continue
            if number == 30:
                continue
            good = number == 0 or number in UNSEEN_NUMBERS and words[0] not in SEEN_CASES
            if (kind, path) not in judged:
                judged[kind, path] = judge.is_valid(value)
            assert judged[kind, path] == (good or words[0] in UNSEEN_CASES), (line, told.get(words[0]))
            seen += 1
    assert seen > 80


def test_both_spellings_at_their_ends() -> None:
    judge = validator(schema("published_schema.json"))

    def start(value: object) -> bool:
        return bool(judge.is_valid({"classes": [{"id": "0001", "days": "10", "start": value, "weeks": "01"}]}))
    for value in (0, 65535, "0", "65535", "0000065535", "00000000000000000001", "9999", "60000", "65499"):
        assert start(value), value
    for value in (-1, 65536, "65536", "70000", "100000", "", "-1", "1.0", " 1", "000000000000000000001", 1.5, True, None, [1]):
        assert not start(value), value


def walk(value: object) -> Iterator[dict[str, Any]]:
    """The parts of a schema that are ranges of numbers."""
    if isinstance(value, dict):
        if isinstance(value.get("anyOf"), list) and value["anyOf"][0].get("type") == "integer":
            yield value
        for inner in value.values():
            yield from walk(inner)
    elif isinstance(value, list):
        for inner in value:
            yield from walk(inner)


def test_ranges_as_texts() -> None:
    """Each pattern of a range of numbers allows exactly the texts in its range, at and around every power of ten."""
    found = {json.dumps(part, sort_keys=True): part for name in NAMES for part in walk(schema(name))}
    assert len(found) > 8
    for part in found.values():
        text_part = part["anyOf"][1]
        pattern, barred = re.compile(text_part["pattern"]), text_part.get("not", {}).get("pattern")
        least, most = part["anyOf"][0]["minimum"], part["anyOf"][0]["maximum"]
        for middle in [least, most] + [digit * 10**power for power in range(11) for digit in range(1, 10)]:
            for number in range(max(0, middle - 2), middle + 3):
                for text in (str(number), "00" + str(number)):
                    allowed = bool(pattern.search(text)) and not (barred and re.search(barred, text))
                    assert allowed == (least <= number <= most), (most, text)


def test_types() -> None:
    judge = validator(schema("problem_schema.json")["$defs"]["distribution"]["properties"]["type"])
    for text in ("SameStart", "SameAttendees", "WorkDay(1)", "MinGap( 65535 )", "MaxDays(00003)", "MaxBreaks( 1 , 6)",
                 "MaxBlock(0,65535)", "MaxWeeks(0)"):
        assert judge.is_valid(text) and limits.type_name(text, 2), text
    for text in ("samestart", "SameStart()", "WorkDay", "WorkDay()", "WorkDay(65536)", "WorkDay(000001)", "WorkDay(1,2)",
                 "MaxBreaks(1)", "MaxBlock(1,65536)", "WorkDay (1)", "SameTime "):
        assert not judge.is_valid(text) and not limits.type_name(text, 2), text
    assert limits.type_name("MaxWeeks(1)") is None


def test_versions() -> None:
    judge = validator(schema("problem_schema.json"))

    def problem(weeks: int, kind: str = "SameStart", **version: object) -> bool:
        return bool(judge.is_valid({
            **version, "nrDays": 1, "nrWeeks": weeks, "slotsPerDay": 1,
            "optimization": {"time": 0, "room": 0, "distribution": 0, "student": 0}, "courses": [],
            "distributions": [{"type": kind, "required": True, "classes": []}],
        }))
    for version in ({}, {"version": None}, {"version": 1}, {"version": "01"}):
        assert problem(64, **version) and not problem(65, **version) and not problem(64, "MaxWeeks(1)", **version), version
    for version in ({"version": 2}, {"version": "2"}):
        assert problem(128, "MaxWeeks(0)", **version) and not problem(129, **version), version
    for wrong in (0, 3, "3", "", 1.5, [2]):
        assert not problem(1, version=wrong), wrong


@pytest.mark.parametrize("form, name", zip(("problem", "solution"), NAMES))
def test_what_the_converter_writes(form: str, name: str, tool: Tool) -> None:
    out, _ = tool("itc2019", form, DATA / f"{form}.xml")
    assert [error.message for error in validator(schema(name)).iter_errors(json.loads(out))] == []
