"""The imports of definitions and proofs: what a file takes of which module, and how that is written."""
from __future__ import annotations

import copy
import re
from dataclasses import dataclass, field
from typing import Dict, Iterator, List, Tuple

# How many characters a line has at most.
WIDTH = 160
MARKS = re.compile(r"[{},]|[^{},\s]+")


@dataclass
class Module:
    """What is imported of a module: names, and modules in it."""

    names: List[str] = field(default_factory=list)
    modules: Dict[str, Module] = field(default_factory=dict)

    def at(self, path: List[str]) -> Module:
        module = self
        for part in path:
            module = module.modules.setdefault(part, Module())
        return module

    def add(self, words: Iterator[str]) -> None:
        """Adds what stands between braces, up to the closing one."""
        item: List[str] = []
        for word in words:
            if word == "{":
                self.at(item.pop().rstrip(".").split(".")).add(words)
            elif word in ",}":
                name = " ".join(item)
                if item and name not in self.names:
                    self.names.append(name)
                item = []
                if word == "}":
                    return
            else:
                item.append(word)

    def all(self, path: str) -> Iterator[Tuple[str, str]]:
        """Each name that is imported, with its module, of which this is the path."""
        yield from ((path, name) for name in self.names)
        for name, module in self.modules.items():
            yield from module.all(f"{path}.{name}")

    def tree(self, path: str) -> str:
        """What stands behind `use`, with this path of the module."""
        module = self
        while not module.names and len(module.modules) == 1:
            (name, module), = module.modules.items()
            path += f".{name}"
        return f"{path}.{{{', '.join([*module.names, *(inner.tree(name) for name, inner in module.modules.items())])}}}"


@dataclass
class File:
    """A file: of each crate what it imports, the modules to which it gives a name, and all other lines."""

    crates: Dict[str, Module] = field(default_factory=dict)
    renamed: List[str] = field(default_factory=list)
    others: List[str] = field(default_factory=list)
    # How many of the other lines stand before the imports.
    front: int = 0

    @staticmethod
    def of(text: str) -> File:
        file, lines, has_any = File(), text.split("\n"), False
        while lines:
            line = lines.pop(0)
            if not line.startswith("use "):
                file.others.append(line)
                continue
            if not has_any:
                file.front, has_any = len(file.others), True
            while line.count("{") > line.count("}"):
                line = f"{line} {lines.pop(0).strip()}"
            if "{" in line:
                words = iter(MARKS.findall(line)[1:])
                path = next(words).rstrip(".").split(".")
                next(words)
                file.crates.setdefault(".".join(path[:2]), Module()).at(path[2:]).add(words)
            else:
                file.renamed.append(line)
        return file

    def imported(self) -> Iterator[Tuple[str, str]]:
        """Each name that is imported, with the path of its module."""
        for crate, module in self.crates.items():
            yield from module.all(crate)

    def text(self) -> str:
        lines = [line for crate, module in self.crates.items() for line in uses(crate, module)]
        return "\n".join(self.others[: self.front] + lines + self.renamed + self.others[self.front:])


def uses(crate: str, module: Module) -> List[str]:
    """The imports of a crate, in as few lines of at most WIDTH characters as its modules and names fit in one by one."""
    lines: List[str] = []
    begun = Module()
    for path, name in module.all(crate):
        more = copy.deepcopy(begun)
        more.at(path.split(".")[2:]).names.append(name)
        if len(f"use {more.tree(crate)}") > WIDTH:
            lines.append(f"use {begun.tree(crate)}")
            more = Module()
            more.at(path.split(".")[2:]).names.append(name)
        begun = more
    return [*lines, f"use {begun.tree(crate)}"]
