"""Reads values of a JSON file as `uttab` does: numbers in both spellings, references as ids or objects, `null` as absent,
keys that have no meaning skipped. A fault names the file and the path of the value."""

import json
import re
import sys
from collections.abc import Iterator
from contextlib import contextmanager
from io import TextIOWrapper
from typing import BinaryIO, NoReturn, TextIO

from uttab_tools import limits
from uttab_tools.limits import Range
from uttab_tools.program import FileFault

# How a half of a character that JSON writes in two halves looks.
HALF = re.compile(r"\\u[dD][89a-fA-F]")


@contextmanager
def reading_bytes(name: str) -> Iterator[BinaryIO]:
    """The bytes of the file of that name while it is read, `-` being the standard input. What goes wrong with it is the
    file's fault."""
    try:
        if name == "-":
            if sys.stdin is None:
                raise FileFault("-: the standard input is closed")
            yield sys.stdin.buffer
        else:
            with open(name, "rb") as file:
                yield file
    except OSError as error:
        raise FileFault(f"{name}: {error.strerror}") from None


@contextmanager
def reading(name: str) -> Iterator[TextIO]:
    """The text of a file, in UTF-8, while it is read."""
    with reading_bytes(name) as file:
        text = TextIOWrapper(file, encoding="utf-8-sig", newline="")
        try:
            yield text
        except UnicodeDecodeError as error:
            raise FileFault(f"{name}: is no UTF-8: {error.reason} at byte {error.start}") from None
        finally:
            text.detach()


def load_json(name: str) -> object:
    """The one JSON value of a file."""
    with reading(name) as file:
        text = file.read()
    if name == "-" and not text:
        raise FileFault("-: nothing is left of the standard input, which can be one file alone")
    try:
        value: object = json.loads(text, parse_constant=_no_number)
        if HALF.search(text):
            json.dumps(value, ensure_ascii=False).encode()
    except RecursionError:
        raise FileFault(f"{name}: nested too deep") from None
    except json.JSONDecodeError as error:
        raise FileFault(f"{name}: line {error.lineno}, column {error.colno}: no JSON text: {error.msg}") from None
    except UnicodeEncodeError:
        raise FileFault(f"{name}: no JSON text: a text has one half of a character alone") from None
    except ValueError as error:
        raise FileFault(f"{name}: {error}") from None
    return value


def _no_number(word: str) -> NoReturn:
    raise ValueError(f"no JSON text: {word} is no number")


class Reader:
    """Reads values of one file. A path is that of `uttab`'s faults: keys and places in lists, each after a `/`."""

    def __init__(self, name: str) -> None:
        self.name = name

    def fault(self, path: str, words: str) -> NoReturn:
        raise FileFault(f"{self.name}: {path or '/'}: {words}")

    def fields(self, value: object, path: str) -> dict[str, object]:
        if not isinstance(value, dict):
            self.fault(path, "is no object")
        return value

    def part(self, value: object, key: str, path: str) -> tuple[object, str]:
        """The value of a key that has to be there, and its path."""
        inner = self.fields(value, path).get(key)
        if inner is None:
            self.fault(f"{path}/{key}", "is absent")
        return inner, f"{path}/{key}"

    def items(self, value: object, key: str, path: str, most: int, needed: bool = False) -> list[tuple[object, str]]:
        """The items of a list, each with its path. A list that may be absent is empty then."""
        items = self.fields(value, path).get(key)
        if items is None and not needed:
            return []
        if not isinstance(items, list):
            self.fault(f"{path}/{key}", "is absent" if items is None else "is no list")
        if len(items) > most:
            self.fault(f"{path}/{key}", f"has {len(items):,} items, of which there may be {most:,}")
        return [(item, f"{path}/{key}/{place}") for place, item in enumerate(items)]

    def number(self, value: object, path: str, within: Range = limits.NUMBER) -> int:
        if isinstance(value, str) and 1 <= len(value) <= 20 and value.isascii() and value.isdigit():
            value = int(value)
        if not isinstance(value, int) or isinstance(value, bool):
            self.fault(path, f"{json.dumps(value)[:60]} is no number")
        if value not in within:
            self.fault(path, f"{value} isn't within {within.least} to {within.most}")
        return value

    def number_of(self, value: object, key: str, path: str, within: Range = limits.NUMBER) -> int:
        inner, inner_path = self.part(value, key, path)
        return self.number(inner, inner_path, within)

    def number_or(self, value: dict[str, object], key: str, path: str, within: Range, absent: int | None) -> int | None:
        """A number that may be absent."""
        return absent if value.get(key) is None else self.number_of(value, key, path, within)

    def id_of(self, value: object, key: str, path: str) -> int:
        return self.number_of(value, key, path, limits.ID)

    def truth(self, value: dict[str, object], key: str, path: str, absent: bool) -> bool:
        found = value.get(key)
        if found is None:
            return absent
        if isinstance(found, bool | str) and found in limits.TRUTHS:
            return limits.TRUTHS[found]
        self.fault(f"{path}/{key}", "is no truth value")

    def reference(self, value: object, path: str) -> int:
        """An id, or an object whose `id` is one."""
        if isinstance(value, dict):
            return self.id_of(value, "id", path)
        return self.number(value, path, limits.ID)

    def references(self, value: object, key: str, path: str, most: int, needed: bool = False) -> list[int]:
        """The ids of a list of references. Most lists are of plain ids, and are taken as they stand."""
        found = self.fields(value, path).get(key)
        if isinstance(found, list) and 0 < len(found) <= most and set(map(type, found)) == {int}:
            if min(found) in limits.ID and max(found) in limits.ID:
                return list(found)
        return [self.reference(one, place) for one, place in self.items(value, key, path, most, needed)]

    def set_of(self, value: object, key: str, path: str, count: int | None = None) -> int:
        """A set of days or weeks as a whole number."""
        text, inner_path = self.part(value, key, path)
        if not isinstance(text, str) or not limits.is_set(text):
            self.fault(inner_path, f"{json.dumps(text)[:80]} is no set: a text of 0 and 1 with a 1 in it")
        if count is not None and len(text) != count:
            self.fault(inner_path, f"has {len(text)} characters in place of {count}")
        return int(text[::-1], 2)

    def name_of(self, value: dict[str, object]) -> str:
        """The `name` of a part, which `uttab` skips; empty where there is none."""
        name = value.get("name")
        return " ".join(name.split()) if isinstance(name, str) else ""
