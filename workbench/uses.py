"""Compares `crates.txt` with what the sources use, or lists the crates above one.

A line of `crates.txt` must name each crate and library that the sources name, and each that these name in turn as far as
the toolchain wants them; what it names must be used by the crate or by one that it names; a crate stands behind those that
it names, so in their layer or a later one; and each stands below the heading of a layer."""

import re

from repository import LIST, code_lines, folder_of, layers, lines_of_crates, listed_crates, sources_of

# `use tt_base::..` and paths of code, `Rattle.tt_base.specs..` of definitions, `using(tt_base::proofs..)` of tactics.
IN_CODE = re.compile(r"(?<![\w:.])(\w+)::")
IN_DEFINITIONS = re.compile(r"\bRattle\.(\w+)\.")


def named_in(crate: str, libraries: set[str]) -> set[str]:
    """The crates and libraries that the sources of a crate name."""
    found: set[str] = set()
    for path in sources_of(crate):
        text = code_lines(path.read_text(encoding="utf-8"))
        found |= set(IN_DEFINITIONS.findall(text)) | set(IN_CODE.findall(text))
    return (found & libraries) - {crate}


def libraries_of(listed: dict[str, list[str]]) -> set[str]:
    """All crates and libraries that are listed or named."""
    return set(listed).union(*listed.values())


def faults() -> list[str]:
    """What is wrong with `crates.txt`, in words."""
    listed = listed_crates()
    libraries = libraries_of(listed)
    layered = {crate for crates in layers().values() for crate in crates}
    found = [f"{crate}: stands below no heading of a layer" for crate in listed if crate not in layered]
    done: set[str] = set()
    for crate, names in listed.items():
        named = named_in(crate, libraries)
        found += [f"{crate}: uses {name}, which its line doesn't name" for name in sorted(named - set(names))]
        by_others = {name for other in names for name in listed.get(other, [])}
        found += [f"{crate}: names {name}, which neither it nor a crate that it names uses" for name in sorted(set(names) - named - by_others)]
        found += [f"{crate}: stands before {name}, which it names" for name in names if name in listed and name not in done]
        found += [f"{crate}: names {name} twice" for name in sorted({name for name in names if names.count(name) > 1})]
        done.add(crate)
    return found


def above(crate: str) -> list[str]:
    """The crates that are proved anew when this one changes, lowest first."""
    folder_of(crate)
    changed = {crate}
    for name, names in listed_crates().items():
        if changed & set(names):
            changed.add(name)
    return [name for name in listed_crates() if name in changed - {crate}]


def mended(crate: str, listed: dict[str, list[str]]) -> list[str]:
    """What the line of a crate should name: what it names and is of use, and behind that what else the sources name, with
    what those lines name in turn."""
    named = named_in(crate, libraries_of(listed))
    of_use = named.union(*(listed.get(name, []) for name in listed[crate] if name != crate))
    kept = [name for name in dict.fromkeys(listed[crate]) if name in of_use]
    lacking = named - set(kept)
    added = lacking.union(*(listed.get(name, []) for name in lacking)) - set(kept)
    return kept + [name for name in listed if name in added] + sorted(added - set(listed))


def write() -> None:
    """Writes the lines that have a fault anew, lowest first, and leaves the others as they are."""
    listed = listed_crates()
    texts = []
    for text, crate, names in lines_of_crates():
        if crate and (now := mended(crate, listed)) != names:
            listed[crate] = now
            text = f"{text.partition(':')[0]}: {' '.join(now)}".rstrip()
            print(text)
        texts.append(text)
    LIST.write_text("\n".join(texts) + "\n", encoding="utf-8")


def uses(crate: str | None, mend: bool) -> int:
    if crate is not None:
        names = above(crate)
        print(f"{len(names)} crates stand above {crate}: {' '.join(names)}")
        return 0
    if mend:
        write()
    found = faults()
    print("\n".join([*found, f"crates.txt: {len(listed_crates())} crates in {len(layers())} layers, {len(found)} faults"]))
    return 1 if found else 0
