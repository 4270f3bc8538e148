"""The parts of a problem file as they stand in it, for commands that write the file anew with some of them changed.

The file was read as a `Problem` before, so that its rooms, courses and students are in order; its rules are read here."""

from collections.abc import Iterator, Mapping
from dataclasses import dataclass

from uttab_tools import limits
from uttab_tools.problem import Problem
from uttab_tools.reading import Reader

Value = dict[str, object]


def parts(value: Mapping[str, object], key: str) -> list[Value]:
    """The objects of a list, none where there is no list."""
    found = value.get(key)
    return [one for one in found if isinstance(one, dict)] if isinstance(found, list) else []


def with_parts(value: Value, **own: object) -> Value:
    """An object with some of its keys changed."""
    return {**value, **own}


def classes_of_course(course: Mapping[str, object]) -> Iterator[Value]:
    for config in parts(course, "configs"):
        for subpart in parts(config, "subparts"):
            yield from parts(subpart, "classes")


@dataclass(frozen=True, slots=True)
class Rule:
    """A rule: its type and parameters, the ids of its classes, each once, and the object that it stands in."""

    kind: str
    parameters: tuple[int, ...]
    classes: list[int]
    value: Value

    def over(self, classes: list[int], parameters: tuple[int, ...] | None = None) -> Value:
        """The same rule over other classes, or with other parameters."""
        numbers = self.parameters if parameters is None else parameters
        text = self.kind + (f"({','.join(map(str, numbers))})" if numbers else "")
        return with_parts(self.value, type=text, classes=classes)


def rules_of(problem: Problem) -> Iterator[Rule]:
    """The rules of a problem, in its order."""
    reader = Reader(problem.file)
    for item, path in reader.items(problem.value, "distributions", "", limits.DISTRIBUTIONS):
        found, text_path = reader.part(item, "type", path)
        text = str(found)
        kind = limits.type_name(text, problem.version)
        if kind is None:
            reader.fault(text_path, f"{text[:60]!r} is no type of a rule")
        numbers = text.partition("(")[2].rstrip(")").split(",") if "(" in text else []
        members: dict[int, bool] = {}
        for member, member_path in reader.items(item, "classes", path, limits.CLASSES_OF_A_DISTRIBUTION, True):
            number = reader.reference(member, member_path)
            if number not in problem.classes:
                reader.fault(member_path, f"the problem has no class {number}")
            members[number] = True
        yield Rule(kind, tuple(int(number) for number in numbers), list(members), reader.fields(item, path))
