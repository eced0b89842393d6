"""What a contract rests on, for tools/clauses: the definitions that it cites, the types that it speaks of, and what these cite in turn."""
import re

from definitions import TOP, House, cited_names, imports_of

SHOWN = re.compile(r"^pub(?:\(\w+\))? (?:struct|enum|trait) (\w+)")


class Types:
    """The types and traits of the sources: each by its crate and name, with its file, and the lines that declare it and say what contracts
    see of it."""

    def __init__(self, names):
        self.found, self.texts = {}, {}
        for crate in names:
            for path in sorted((TOP / "crates" / crate / "src").rglob("*.rt")):
                lines = path.read_text().splitlines()
                self.texts[path] = "\n".join(lines)
                for at, line in enumerate(lines):
                    if found := SHOWN.match(line):
                        self.found.setdefault((crate, found[1]), (path, at))

    def named(self, crate, path, name):
        """The type that a name stands for in a file of a crate, if it is one of the repository's."""
        if (crate, name) in self.found:
            return crate, name
        for other, items in re.findall(r"^(?:pub )?use (\w+)::([^;]*);", self.texts[path], flags=re.M):
            if re.search(rf"\b{name}\b", items):
                owners = [it for it in self.found if it[1] == name]
                return (other, name) if (other, name) in self.found else owners[0] if len(owners) == 1 else None
        return None

    def declared(self, kind):
        """The lines of the type: its comment and its declaration; of one with a view, what it is seen as in place of its private fields."""
        path, at = self.found[kind]
        lines = self.texts[path].splitlines()
        first = at
        while lines[first - 1].startswith(("///", "#[")):
            first -= 1
        comment = [line for line in lines[first:at] if line.startswith("///")]
        body = until(lines, at, lambda line: line.startswith("}") or line == lines[at] and line.endswith((";", "}")))
        seen = self.view(kind)
        body = [line for line in body if not line.lstrip().startswith("#[")]
        return comment[: comment.index("///") if "///" in comment else None], body, seen

    def view(self, kind):
        """What contracts see of a type that has an `impl Model`."""
        path, _ = self.found[kind]
        lines = self.texts[path].splitlines()
        starts = [at for at, line in enumerate(lines) if re.match(rf"impl(<.*>)? Model for {kind[1]}\b", line)]
        if not starts:
            return []
        block = until(lines, starts[0], lambda line: line == "}")
        shown, keeps = [], False
        for line in block:
            keeps = keeps or re.match(r"    ghost (Value|view)\b", line) is not None
            if keeps:
                shown.append(line)
                keeps = not line.endswith(";")
        return [lines[starts[0]], *shown, "}"]


def until(lines, at, is_last):
    """The lines from one on, up to the first that is the last one."""
    taken = []
    for line in lines[at:]:
        taken.append(line)
        if is_last(line):
            break
    return taken


class Closure:
    """All that a contract rests on: the contract first, and behind each text what it cites, in its order, each once."""

    def __init__(self):
        self.house = House()
        self.types = Types(self.house.names)
        self.seen, self.parts, self.elsewhere = set(), [], {}

    def add_contract(self, crate, path, lines):
        """Adds what a public function's contract cites, and the types of its arguments and result."""
        text = "\n".join(lines)
        self.add_cited(text, imports_of(path.read_text()))
        head = re.split(r"\n\s*(?:ensures|requires|ghost)\b", text)[0]
        self.add_types(crate, path, re.findall(r"\b[A-Z]\w*", head))

    def add_cited(self, text, imports, own=None):
        """Adds what a text cites by these imports, or of its own file."""
        operators = [it for it in imports if "◌" in it and all(f" {part} " in f" {text} " for part in it.split("◌") if part)]
        for name in [*cited_names(text), *operators]:
            if own and name in own.homes:
                self.add(own.place, own.homes[name])
            else:
                for path, old in sorted(imports.get(name, ())):
                    self.add_named(path, old)

    def add_named(self, path, name):
        crate = path[0]
        if crate not in self.house.names:
            self.elsewhere.setdefault(crate, set()).add(name)
        elif "declared" in path:
            self.add_type((crate, path[-2] if path[-1] == "TheVariants" else path[-1]))
        elif found := self.house.resolve(path, name):
            self.add(*found)

    def add(self, place, name):
        if (place, name) in self.seen:
            return
        self.seen.add((place, name))
        file = self.house.files[place]
        self.parts.append((f"crates/{place[0]}/specs/{'/'.join(place[2:])}.antt", name, file.printed(name)))
        self.add_cited("\n".join(file.blocks[name]), {key: paths for key, paths in file.imports.items() if key != name}, file)

    def add_type(self, kind):
        if kind in self.seen or kind not in self.types.found:
            return
        self.seen.add(kind)
        path, _ = self.types.found[kind]
        comment, body, view = self.types.declared(kind)
        self.parts.append((str(path.relative_to(TOP)), kind[1], [*comment, *(line for line in view or body if line)]))
        # A trait's methods have contracts.
        text = "\n".join(body if " trait " in body[0] else view)
        self.add_cited(text, imports_of(self.types.texts[path]))
        fields = [line for line in body if not view or any(re.search(rf"\.{name}\b", text) for name in re.findall(r"(\w+):", line))]
        self.add_types(kind[0], path, re.findall(r"\b[A-Z]\w*", "\n".join(fields)))

    def add_types(self, crate, path, names):
        for name in names:
            if kind := self.types.named(crate, path, name):
                self.add_type(kind)

    def lines(self):
        """How many lines of definitions there are, besides comments."""
        return sum(not line.strip().startswith(("--", "//")) for _, _, lines in self.parts for line in lines)

    def show(self):
        before = None
        for file, _, lines in self.parts:
            print(f"\n{file}" if file != before else "")
            before = file
            print("\n".join(f"    {line}" for line in lines))
        print()
        for crate, names in sorted(self.elsewhere.items()):
            print(f"named only, of {crate}: {' '.join(sorted(names))}")
        files = {file for file, _, _ in self.parts}
        print(f"{self.lines()} lines besides comments: {len(self.parts)} definitions and types, of {len(files)} files")
