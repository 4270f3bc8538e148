"""The definitions that the theorem reaches: their number, their lines, and the marks of their files.

The theorem is the clause `form` of `tt_top::run`. A definition is reached where one that is reached cites it, from those
below on. The first line of a file of specs/ begins with `Theorem` where one of its definitions is reached."""

import re
from collections import Counter, defaultdict
from dataclasses import dataclass, field

from repository import CRATES

Name = tuple[str, str]  # the module and the definition

RUN = "tt_top.specs.Run"
WORDS = [(RUN, "file_limit"), ("tt_top.specs.Words", "form_of")]
ROOTS = {
    "run and check": [*WORDS, (RUN, "IsFileRun")],
    "with verify": [*WORDS, (RUN, "IsFileRun"), (RUN, "IsVerifyRun")],
    "all": [*WORDS, (RUN, "IsRun")],
}
DEFINED = re.compile(r"(?:(?:abbrev|unfoldable|opaque) )?(?:pub )?(?:(record )([^\s:(]+)|([^\s:(]+) ?:)")
IMPORTED = re.compile(r"use Rattle\.([\w.]+)\.\{(.*)\}")
MODULE = re.compile(r"use Rattle\.([\w.]+)(?: as (\w+))?")
COMMENT = re.compile(r"\s*--")
WORD = re.compile(r"[A-Za-z_][\w'ℕ-]*(?:\.[A-Za-z_][\w'-]*)*|◌[^\s,}]+◌|>>=")


@dataclass
class Module:
    """A file of specs/: its mark, what it imports, and its definitions with their lines, and how many comment lines each has."""

    mark: str
    names: dict[str, Name] = field(default_factory=dict)
    modules: dict[str, str] = field(default_factory=dict)
    definitions: dict[str, list[str]] = field(default_factory=dict)
    comments: Counter[str] = field(default_factory=Counter)

    def take_import(self, line: str) -> None:
        if match := IMPORTED.match(line):
            for item in match[2].split(","):
                name, _, here = item.strip().partition(" as ")
                self.names[here or name] = (match[1], name)
        elif match := MODULE.match(line):
            self.modules[match[2] or match[1].split(".")[-1]] = match[1]


def module_of(text: str) -> Module:
    found = Module(re.sub(r"^--\s*", "", text).split(".")[0].split(" ")[0].rstrip(":,"))
    open_one: str | None = None
    above = 0  # the comment lines right above
    for line in text.split("\n"):
        if COMMENT.match(line):
            above += 1
            continue
        if line.startswith("use "):
            found.take_import(line)
        elif line and not line[0].isspace():
            match = DEFINED.match(line)
            open_one = (match[2] or match[3]) if match else open_one
            if open_one:
                found.definitions.setdefault(open_one, []).append(line)
                found.comments[open_one] += above
        elif line.strip() and open_one:
            found.definitions[open_one].append(line)
            found.comments[open_one] += above
        above = 0
    return found


def read_modules() -> dict[str, Module]:
    """All files of specs/, by their names as modules."""
    found = {}
    for path in sorted(CRATES.glob("*/specs/**/*.antt")):
        if path.name != "Lib.antt":
            found[".".join(path.relative_to(CRATES).with_suffix("").parts)] = module_of(path.read_text(encoding="utf-8"))
    return found


def cited(modules: dict[str, Module], name: Name) -> set[Name]:
    """What a definition cites."""
    module = modules[name[0]]
    text = "\n".join(module.definitions[name[1]])
    found = set()
    for word in set(WORD.findall(text)):
        head, _, rest = word.partition(".")
        if head in module.definitions:
            found.add((name[0], head))
        elif head in module.names:
            found.add(module.names[head])
        elif head in module.modules and rest:
            found.add((module.modules[head], rest.split(".")[0]))
    if ">>=" in text or re.search(r"\bdo\b", text):
        found |= {where for here, where in module.names.items() if ">>=" in here}
    return found - {name}


def reached(modules: dict[str, Module], roots: list[Name]) -> set[Name]:
    seen: set[Name] = set()
    waiting = list(roots)
    while waiting:
        name = waiting.pop()
        if name not in seen and name[0] in modules and name[1] in modules[name[0]].definitions:
            seen.add(name)
            waiting += cited(modules, name)
    return seen


def lines_of(modules: dict[str, Module], names: set[Name]) -> int:
    return sum(len(modules[module].definitions[name]) for module, name in names)


def comments_of(modules: dict[str, Module], names: set[Name]) -> int:
    return sum(modules[module].comments[name] for module, name in names)


def tell_files(modules: dict[str, Module], names: set[Name]) -> None:
    """Writes each file that is reached, with how many of its definitions are, and their lines."""
    count = Counter(module for module, _ in names)
    for module in sorted(count):
        mine = {name for name in names if name[0] == module}
        print(f"  {module}: {count[module]} of {len(modules[module].definitions)} definitions, {lines_of(modules, mine)} lines")


def tell_same_words(names: set[Name]) -> None:
    """Writes the words that stand for more than one definition."""
    places = defaultdict(list)
    for module, name in names:
        places[name].append(module)
    for name, found in sorted(places.items()):
        if len(found) > 1:
            print(f"  {name}: {', '.join(sorted(found))}")


def theorem(files: bool, words: bool) -> int:
    modules = read_modules()
    for title, roots in ROOTS.items():
        names = reached(modules, roots)
        lines = lines_of(modules, names)
        print(f"{title}: {len(names)} definitions in {lines} lines, {lines + comments_of(modules, names)} with their comments")
    if files:
        tell_files(modules, names)
    if words:
        tell_same_words(names)
    files_reached = {module for module, _ in names}
    marked = {name for name, module in modules.items() if module.mark == "Theorem"}
    for name in sorted(files_reached - marked):
        print(f"  {name} is reached, and isn't marked Theorem")
    for name in sorted(marked - files_reached):
        print(f"  {name} is marked Theorem, and isn't reached")
    print(f"{len(files_reached)} files are reached, {len(marked)} are marked Theorem")
    return 0 if marked == files_reached else 1
