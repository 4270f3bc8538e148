"""Writes the competition's XML of a problem."""

from typing import Any
from xml.sax.saxutils import quoteattr


def element(name: str, attributes: dict[str, Any], inner: str = "") -> str:
    words = "".join(f" {key}={quoteattr(str(value))}" for key, value in attributes.items() if value is not None)
    return f"<{name}{words}>{inner}</{name}>" if inner else f"<{name}{words}/>"


def some(value: dict[str, Any], *keys: str) -> dict[str, Any]:
    return {key: value.get(key) for key in keys}


def elements(name: str, values: list[dict[str, Any]], *keys: str) -> str:
    return "".join(element(name, some(value, *keys)) for value in values)


def problem_xml(problem: dict[str, Any]) -> str:
    """The competition's XML of a problem whose numbers, truth values and references are written plainly."""
    def room(value: dict[str, Any]) -> str:
        return element("room", some(value, "id", "capacity"), elements("travel", value.get("travel", []), "room", "value")
                       + elements("unavailable", value.get("unavailable", []), "days", "start", "length", "weeks"))

    def one_class(value: dict[str, Any]) -> str:
        attributes = some(value, "id", "limit", "parent") | {"room": "false" if value.get("room") is False else None}
        return element("class", attributes, elements("room", value.get("rooms", []), "id", "penalty")
                       + elements("time", value["times"], "days", "start", "length", "weeks", "penalty"))

    def subpart(value: dict[str, Any]) -> str:
        return element("subpart", some(value, "id"), "".join(map(one_class, value["classes"])))

    def config(value: dict[str, Any]) -> str:
        return element("config", some(value, "id"), "".join(map(subpart, value["subparts"])))

    def course(value: dict[str, Any]) -> str:
        return element("course", some(value, "id"), "".join(map(config, value["configs"])))

    def distribution(value: dict[str, Any]) -> str:
        attributes = some(value, "type") | ({"required": "true"} if value.get("required") else some(value, "penalty"))
        return element("distribution", attributes, "".join(element("class", {"id": id}) for id in value["classes"]))

    def student(value: dict[str, Any]) -> str:
        return element("student", some(value, "id"), "".join(element("course", {"id": id}) for id in value["courses"]))

    parts = [element("optimization", problem["optimization"])]
    for key, write in (("rooms", room), ("courses", course), ("distributions", distribution), ("students", student)):
        parts.append(element(key, {}, "\n".join(map(write, problem[key]))))
    return element("problem", some(problem, "name", "nrDays", "nrWeeks", "slotsPerDay"), "\n".join(parts))
