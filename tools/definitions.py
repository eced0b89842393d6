"""The definitions of the repository's crates, and what cites what: for tools/clauses and tests/layers/believed.

Definitions are those of specs/, and the types of src/ with their views, by which a contract speaks of values.
"""
import re
from pathlib import Path

TOP = Path(__file__).resolve().parent.parent
NAME = re.compile(r"(?<![.\w'])[^\W\d][\w'-]*")
USE = re.compile(r"use\s+Rattle\.([\w.]+?)\.\{([^}]*)\}", re.S)


def cited_names(text):
    """The names in a text, in its order, but for fields: those behind a dot, and those that a record gives or declares."""
    text = re.sub(r"--[^\n]*", "", text)
    text = re.sub(r"\bpub\s+«?[\w']+»?\s*:", ":", text)
    text = re.sub(r"[\w']+\s+=(?![=])(?=\s)", "=", re.sub(r"^\S.*? = ", lambda m: m.group().replace("=", ":="), text, flags=re.M))
    return list(dict.fromkeys(NAME.findall(text)))


def crates():
    for line in (TOP / "crates.txt").read_text().splitlines():
        if line.strip() and not line.startswith("#"):
            yield line.split(":")[0].split()[0]


def imports_of(text):
    """For each name that a text brings in the paths that it may stand for."""
    found = {}
    for path, items in USE.findall(text):
        for item in items.split(","):
            old, _, new = item.strip().partition(" as ")
            *inner, name = old.split(".")
            found.setdefault((new or name).strip(), set()).add(((*path.split("."), *inner), name))
    return found


class Definitions:
    """The definitions of a file of specs/: the names that each cites, and which definition a name stands for."""

    def __init__(self, crate, module, text):
        self.place = (crate, "specs", *module)
        self.imports = imports_of(text)
        self.text = text.splitlines()
        self.blocks, self.homes, self.numbers = {}, {}, {}
        body = re.sub(r"^(pub )?use .*$", "", text, flags=re.M)
        name = None
        for number, line in enumerate(body.splitlines()):
            if line and not line[0].isspace() and not line.startswith("--"):
                name = self.head(line) or name
            if name is None:
                continue
            self.blocks.setdefault(name, []).append(line)
            self.numbers.setdefault(name, []).append(number)
            inner = re.match(r"\s+(?:abbrev |unfoldable |pub )*([^\W\d][\w'-]*)\s*:", line)
            if inner and not re.match(r"\s+pub\s", line) or name.startswith("module "):
                if inner:
                    self.homes.setdefault(inner.group(1), name)
        for name in self.blocks:
            self.homes[name] = name

    @staticmethod
    def head(line):
        words = re.sub(r"^((abbrev|unfoldable|pub|record|data)\s+)*", "", line)
        if words.startswith(("unfolding", "mutual")):
            return None
        if words.startswith("module "):
            return "module " + words
        found = re.match(r"«?([^\s({:»]+)", words)
        return found.group(1) if found else None

    def printed(self, name):
        """The definition's own lines, with the comment above it."""
        above = ("--", "unfolding ")
        first = self.numbers[name][0]
        while first and self.text[first - 1].startswith(above):
            first -= 1
        own = {number for number in self.numbers[name] if not self.text[number].startswith(above)} | {*range(first, self.numbers[name][0])}
        return [self.text[number] for number in sorted(own) if self.text[number].strip()]


class House:
    """The definitions of all crates."""

    def __init__(self):
        self.files = {}
        self.names = list(crates())
        for crate in self.names:
            folder = TOP / "crates" / crate / "specs"
            for path in sorted(folder.rglob("*.antt")):
                module = path.relative_to(folder).with_suffix("").parts
                if module != ("Lib",):
                    made = Definitions(crate, module, path.read_text())
                    self.files[made.place] = made

    def resolve(self, path, name):
        """The definition that a name of a module stands for, as its file and its block."""
        for length in range(len(path), 1, -1):
            file = self.files.get(path[:length])
            if file is None:
                continue
            wanted = name if length == len(path) else path[length]
            if wanted in file.homes:
                return file.place, file.homes[wanted]
            for further, old in file.imports.get(wanted, ()):
                return self.resolve(further, old)
        return None

    def cited_by(self, names, imports):
        for name in names:
            for path, old in imports.get(name, ()):
                found = self.resolve(path, old)
                if found:
                    yield found

    def cites(self, definition):
        place, name = definition
        file = self.files[place]
        names = [it for it in cited_names("\n".join(file.blocks[name])) if it != name]
        for own in names:
            if own in file.homes:
                yield place, file.homes[own]
        yield from self.cited_by([it for it in names if it not in file.homes], file.imports)

    def closure(self, roots):
        """What is cited, and by what each was cited first."""
        reasons = {}
        todo = []
        for root, reason in roots:
            if root not in reasons:
                reasons[root] = reason
                todo.append(root)
        while todo:
            definition = todo.pop()
            for cited in self.cites(definition):
                if cited not in reasons:
                    reasons[cited] = definition
                    todo.append(cited)
        return reasons
