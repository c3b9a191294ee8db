"""The definitions of all crates, and which of them each is made of."""
from __future__ import annotations

import glob
import re
from dataclasses import dataclass, field
from typing import Dict, Iterator, List, Set, Tuple

from defining.imports import File

# What begins a definition, or tells how its sign binds; and what constructors begin with.
BEGINS = re.compile(r"(?:(?:abbrev|unfoldable|pub|data|record) )*(?:infix[lr]? \d+ )?([^\s:({]+)")
VARIANT = re.compile(r"  ([^\s:]+) :")
WORDS = re.compile(r"[^\s(){},;.]+")


@dataclass(eq=False)
class Item:
    """A definition: its module, its file, its names (of a `data` also those of its constructors), and its lines."""

    module: str
    path: str
    names: List[str]
    lines: List[str] = field(default_factory=list)

    def words(self) -> Set[str]:
        text = "\n".join(line for line in self.lines if not line.startswith("--"))
        return set(WORDS.findall(text)) | set(text.split())


def signs(name: str) -> List[str]:
    """A name as it stands where it is used: the signs between places, or the name itself."""
    return [sign for sign in name.split("◌") if sign] if "◌" in name else [name]


def items_of(path: str, module: str, lines: List[str]) -> Iterator[Item]:
    """The definitions of a file, by its lines without imports."""
    items: Dict[str, Item] = {}
    item = None
    for line in lines:
        # A clause of a sign may begin with what stands before it.
        is_clause = item is not None and "◌" in item.names[0] and line.split()[1:2] == signs(item.names[0])[:1]
        if line and line[0] not in " -()}" and not is_clause:
            name = BEGINS.match(line)[1]
            item = items.setdefault(name, Item(module, path, [name]))
        elif line.startswith("--"):
            item = None
        if item is not None:
            item.lines.append(line)
            variant = VARIANT.match(line)
            if variant and re.search(r"\bdata\b", item.lines[0]):
                item.names.append(variant[1])
    return iter(items.values())


class Definitions:
    """The definitions in the folders `specs` of the crates."""

    def __init__(self) -> None:
        self.items: List[Item] = []
        self.imported: Dict[str, Dict[str, Tuple[str, str]]] = {}
        for path in sorted(glob.glob("crates/*/specs/**/*.antt", recursive=True)):
            with open(path, encoding="utf-8") as text:
                file = File.of(text.read())
            crate, _, rest = path[len("crates/"): -len(".antt")].partition("/")
            module = f"Rattle.{crate}.{rest.replace('/', '.')}"
            if not any(line.startswith("pub mod ") for line in file.others):
                self.items += items_of(path, module, file.others)
            names = (module_and_name(*imported) for imported in file.imported())
            self.imported[module] = {local: (of, name) for local, of, name in names}
        self.by_name = {(item.module, name): item for item in self.items for name in item.names}

    def made_of(self, item: Item) -> Iterator[Item]:
        """The definitions whose names stand in one."""
        words = item.words()
        for local, place in self.imported[item.module].items():
            if place in self.by_name and words.issuperset(signs(local)):
                yield self.by_name[place]
        for other in self.items:
            if other.module == item.module and other is not item:
                if any(words.issuperset(signs(name)) for name in other.names):
                    yield other

    def rests_on(self, items: List[Item]) -> Set[Item]:
        """These, and all that they are made of."""
        found, left = set(items), list(items)
        while left:
            new = set(self.made_of(left.pop())) - found
            found |= new
            left += new
        return found


def module_and_name(module: str, name: str) -> Tuple[str, str, str]:
    """The name by which something is used where it is imported, its module, and its name there."""
    words = name.split(" as ")
    return words[-1], module, words[0]
