"""The contracts of the repository's public functions, read from the sources: for tools/clauses and tools/statements."""
import re
from pathlib import Path

TOP = Path(__file__).resolve().parent.parent
FUNCTION = re.compile(r"( *)(pub(?:\(\w+\))? )?(?:const )?fn (\w+)")


class Crate:
    """The sources of a crate, and which of their names are public."""

    def __init__(self, name):
        self.name, self.folder = name, TOP / "crates" / name
        source = self.folder / "src"
        self.files = {path.relative_to(source): path.read_text().splitlines() for path in sorted(source.rglob("*.rt"))}
        root = next(self.files[Path(file)] for file in ("lib.rt", "main.rt") if Path(file) in self.files)
        heading = " ".join(line[3:].strip() for line in root if line.startswith("//!"))
        self.head = heading.split(". ")[0].rstrip(".")
        self.open = {line[8:-1] for line in root if line.startswith("pub mod ")}
        texts = ["\n".join(lines) for lines in self.files.values()]
        uses = [used for text in texts for used in re.findall(r"^pub use ([^;]*);", text, flags=re.M)]
        self.shown = {word for used in uses for word in re.findall(r"\w+", used)}

    def is_public(self, path, name):
        return name in self.shown or path.parts[0].removesuffix(".rt") in self.open | {"lib", "main"}

    def definitions(self):
        """The names of the files of definitions: those that public contracts cite, and the others."""
        path = self.folder / "specs/Lib.antt"
        first, _, last = path.read_text().partition("\n--") if path.is_file() else ("", "", "")
        return [re.findall(r"^pub mod (\w+)", part, flags=re.M) for part in (first, last)]

    def functions(self):
        """Each public function: its file, the line of its type or '', its name, and the lines of its contract."""
        for path, lines in self.files.items():
            head, owner, all_public = "", None, False
            for at, line in enumerate(lines):
                if re.match(r"impl\b|(pub )?trait ", line):
                    head = line.rstrip(" {")
                    kind = re.sub(r"^impl(<.*?>)? ", "", head).split(" for ")
                    owner = re.search(r"\w+", re.sub(r"^(pub )?trait ", "", kind[-1]).lstrip("&")).group()
                    all_public = len(kind) > 1 or "trait " in head
                elif line == "}":
                    head, owner = "", None
                found = FUNCTION.match(line)
                if not found or len(found[1]) != (4 if owner else 0):
                    continue
                if self.is_public(path, owner or found[3]) and (found[2] == "pub " or owner and all_public):
                    yield path, head, owner, found[3], contract(lines, at, found[1])


def contract(lines, at, indent):
    """The lines of the function that begins there, up to its body."""
    taken = []
    for line in lines[at:]:
        if line.startswith((f"{indent}{{", f"{indent}}}")) and taken:
            break
        text = line.removesuffix(" {") if line.startswith(indent) and line.endswith(" {") else line
        taken.append(text.removeprefix(indent).rstrip())
        # A method of a trait without a body ends at a semicolon that stands in no clause.
        whole = "\n".join(taken)
        if text != line or line.endswith(";") and whole.count("{") == whole.count("}"):
            break
    return [line for line in taken if line and not line.lstrip().startswith("//")]


def labels(lines):
    return set(re.findall(r"^\s*(?:ensures|requires)\s+(\w+)", "\n".join(lines), flags=re.M))


def names():
    return [line.split(":")[0] for line in (TOP / "crates.txt").read_text().splitlines() if ":" in line and not line.startswith("#")]


def meant(functions, path):
    """The functions of a crate that a path may stand for: FUNCTION, TYPE::FUNCTION or FILE::FUNCTION."""
    *owner, name = path.split("::")
    return [found for found in functions if found[3] == name and (not owner or owner[-1] in (found[2], found[0].stem))]


def with_clauses(lines, wanted):
    """The lines of a contract with the clauses of these names alone."""
    taken, keeps = [], True
    for line in lines:
        if clause := re.match(r"\s*(?:ensures|requires) (\w*)", line):
            keeps = clause[1] in wanted
        if keeps:
            taken.append(line)
    return taken
