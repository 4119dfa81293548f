"""Reads what the crates say: the definitions of specs/, the functions and types of src/ with their clauses, and the edits of must-fail/.

It reads formatted files (`rt fmt`): an item begins where a line has its keyword, and ends at the brace below that keyword.
"""

import re
from dataclasses import dataclass, field
from pathlib import Path

ITEM = re.compile(r"(?:abbrev |unfoldable |pub |record |data )*(?:record |data )?([^\s:({]+)")
DECLARES = re.compile(r"(?:abbrev|unfoldable|pub|record|data)\b(?! (?:use|mod)\b)")
USE = re.compile(r"(?:pub |ghost )*use Rattle\.(\w+)\.specs\.([\w.-]+)\.\{([^}]*)\}")
WORD = re.compile(r"[^\s(){}\[\];,.⟦⟧<>]+")
FUNCTION = re.compile(r'( *)(pub(?:\(\w+\))? )?(?:const )?(?:unsafe )?(?:extern "C" )?fn (\w+)')
OWNER = re.compile(r"(pub(?:\(\w+\))? )?(impl|trait)\b(.*)")
MEMBER = re.compile(r"    ghost (\w+) = \{")
MODEL = re.compile(r"impl(?:<.*>)? Model for (\w+)")
# A field that is read or given a value has the name of no definition.
FIELD = re.compile(r"(?<=[\w)\]])\.\w+|(?<=[{;]) *\w+ =|^  (?:pub )?\w+ :", re.M)
TYPE = re.compile(r"pub(?:\(\w+\))? (struct|enum|trait|type) (\w+)")
CLAUSE = re.compile(r" *(requires|ensures)\*?(?: (\w+))? \{")


@dataclass
class Item:
    """A definition of specs/, or a type of src/."""

    name: str
    crate: str
    path: str
    line: int
    text: str
    # Of a type: what contracts see in its place (`impl Model`), if they do.
    model: str = ""

    @property
    def meaning(self):
        """What contracts see of a value: the model's own members, without what the prover shows of each value."""
        head, *lines, end = self.model.splitlines() or ("", "")
        members = [braced(lines, n) for n, it in enumerate(lines) if MEMBER.match(it)]
        return "\n".join([head, *(it for it in members if MEMBER.match(it)[1] not in ("invariant", "coded", "inverse")), end]).strip()


@dataclass
class Clause:
    kind: str
    label: str
    line: int
    text: str


@dataclass
class Member:
    """What an impl says a ghost member of its trait is."""

    name: str
    owner: str
    trait: str
    path: str
    line: int
    text: str


@dataclass
class Function:
    name: str
    owner: str
    trait: str
    crate: str
    path: str
    line: int
    end: int
    is_public: bool
    head: str
    body: str
    clauses: list = field(default_factory=list)

    @property
    def title(self):
        return f"{self.owner}::{self.name}" if self.owner else self.name


@dataclass
class Edit:
    name: str
    path: str
    line: int


class Sources:
    """All of the repository at `root`."""

    def __init__(self, root):
        self.root = Path(root)
        self.crates = sorted(it.name for it in (self.root / "crates").iterdir() if (it / "src").is_dir())
        self.imports, self.items, self.functions, self.types, self.edits = {}, {}, {}, {}, {}
        self.members = {}
        for crate in self.crates:
            for path in sorted((self.root / "crates" / crate / "specs").rglob("*.antt")):
                self.read_spec(crate, path)
            self.functions[crate], self.members[crate] = [], []
            for path in sorted((self.root / "crates" / crate / "src").rglob("*.rt")):
                self.read_code(crate, path)
            self.edits[crate] = [self.read_edit(crate, it) for it in sorted((self.root / "crates" / crate / "must-fail").glob("*.edit"))]

    def named(self, path):
        return str(path.relative_to(self.root))

    def read_spec(self, crate, path):
        lines = unfolded(path.read_text().splitlines())
        of = self.named(path)
        self.imports[of] = imports_of("\n".join(lines))
        starts = [n for n, it in enumerate(lines) if DECLARES.match(it)]
        ends = [n for n, it in enumerate(lines) if DECLARES.match(it) or re.match(r"--|(pub )?(use|mod)\b", it)]
        for start in starts:
            end = next((n for n in ends if n > start), len(lines))
            top = start
            while top and lines[top - 1].startswith("--"):
                top -= 1
            name = ITEM.match(lines[start])[1]
            text = "\n".join(lines[top:end]).rstrip()
            item = Item(name, crate, of, start + 1, text)
            self.items[of, name] = item
            for it in re.findall(r"^  (\S+) :", text, re.M) if re.match(r"(pub )?data\b", lines[start]) else ():
                self.items.setdefault((of, it), item)

    def read_code(self, crate, path):
        lines = path.read_text().splitlines()
        of = self.named(path)
        self.imports[of] = imports_of("\n".join(lines))
        if path.name == "tests.rt":
            return
        # The functions of a trait that is not public are private.
        private = set(re.findall(r"^trait (\w+)", "\n".join(lines), re.M))
        owner = trait = ""
        in_tests = False
        for n, line in enumerate(lines):
            in_tests = in_tests or line.startswith("mod tests {")
            if in_tests:
                continue
            found = OWNER.match(line)
            if found:
                owner, trait = owner_of(found)
            elif line == "}":
                owner = trait = ""
            found = TYPE.match(line)
            if found:
                self.types[crate, found[2]] = Item(found[2], crate, of, n + 1, "\n".join(lines[top_of(lines, n) : end_of(lines, n) + 1]))
            found = MEMBER.match(line)
            if found and trait and trait not in {"Model", *private}:
                self.members[crate].append(Member(found[1], owner, trait, of, n + 1, braced(lines, n)))
            found = MODEL.match(line)
            if found and (crate, found[1]) in self.types:
                self.types[crate, found[1]].model = "\n".join(lines[n : end_of(lines, n) + 1])
            found = FUNCTION.match(line)
            if found:
                made = read_function(crate, of, lines, n, found, owner, trait)
                made.is_public = made.is_public and trait not in private
                self.functions[crate].append(made)

    def read_edit(self, crate, path):
        said = [it.partition(": ") for it in path.read_text().splitlines()]
        file = next((text for key, _, text in said if key == "file"), "")
        old = next((text for key, _, text in said if key == "old"), "")
        of = f"crates/{crate}/{file}"
        lines = (self.root / of).read_text().splitlines() if file and (self.root / of).is_file() else []
        line = next((n + 1 for n, it in enumerate(lines) if old.strip() and old.strip() in it), 0)
        return Edit(path.stem, of, line)

    def spec_file(self, crate, module):
        return f"crates/{crate}/specs/{module.replace('.', '/')}.antt"

    def find(self, of, word, seen=()):
        """What a word of a file means: a definition of specs/ or a type of src/ of this repository; else None."""
        if (of, word) in self.items:
            return self.items[of, word]
        crate, module, name = self.imports.get(of, {}).get(word, ("", "", ""))
        if crate not in self.crates or (of, word) in seen:
            return None
        if module.startswith("declared."):
            parts = module.split(".")
            type_name = parts[parts.index("TheVariants") - 1] if "TheVariants" in parts else parts[-1]
            return self.types.get((crate, type_name))
        return self.find(self.spec_file(crate, module), name, (*seen, (of, word)))

    def lacking(self):
        """The names that a file brings in from specs/ and that are not there."""
        for of, brought in self.imports.items():
            for crate, module, name in brought.values():
                is_written = crate in self.crates and not module.startswith(("declared.", "contracts."))
                if is_written and not self.find(self.spec_file(crate, module), name):
                    yield f"{of}: `{name}` is not in {self.spec_file(crate, module)}"

    def cited(self, of, text):
        """The definitions and types that a text of a file names, in order."""
        text = FIELD.sub(" ", re.sub(r"--[^\n]*|///[^\n]*", "", text))
        found = [self.find(of, it) for it in WORD.findall(text)]
        return list({(it.path, it.name): it for it in found if it}.values())


def unfolded(lines):
    """The lines without the heads of `module _ .. where`, and with what is inside moved to the left."""
    made, inside = [], False
    for line in lines:
        is_head = line.startswith("module ")
        inside = is_head or inside and (not line or line.startswith("  "))
        made.append("" if is_head else line.removeprefix("  ") if inside else line)
    return unfolded(made) if made != lines else made


def imports_of(text):
    """The names that a file brings in, each with its crate, its module and its name there."""
    brought = {}
    for crate, module, names in USE.findall(text):
        for it in names.split(","):
            name, _, alias = it.strip().partition(" as ")
            brought[alias.strip() or name] = (crate, module, name)
    return brought


def owner_of(found):
    """The type and the trait of an impl's or a trait's head."""
    head = re.sub(r"\s*\{?\s*(?:where.*)?$", "", found[3])
    head = re.sub(r"^<(?:[^<>]|<[^<>]*>)*>", "", head).strip()
    if found[2] == "trait":
        name = re.match(r"\w+", head)[0]
        return name, name
    first, _, second = head.partition(" for ")
    bare = lambda it: (re.match(r"&?(?:mut )?(\w+)", it) or [it, it])[1]
    return (bare(second), bare(first)) if second else (bare(first), "")


def top_of(lines, n):
    """Where the comments and attributes above a line begin."""
    while n and re.match(r"\s*(///|//|#\[)", lines[n - 1]):
        n -= 1
    return n


def end_of(lines, n):
    """The last line of the type or impl that begins on a line."""
    indent = re.match(" *", lines[n])[0]
    closes = lambda it: it.startswith(indent + "}") or it.endswith(";") and not it.startswith(indent + " ")
    return next((k for k in range(n, len(lines)) if closes(lines[k])), len(lines) - 1)


def read_function(crate, of, lines, n, found, owner, trait):
    """The function whose head is on a line: its clauses stand between its head and its body, or between it and a blank line."""
    indent, after = found[1], range(n + 1, len(lines))
    # A body on a line of its own, or none, as in a trait.
    closes = lambda k: re.match(rf"{indent}(\}}|\{{.*\}}$)", lines[k]) or not lines[k] and lines[k - 1].endswith(";")
    ends = n if lines[n].endswith("}") else next((k for k in after if closes(k)), len(lines) - 1)
    opens = n if lines[n].endswith(("}", " {")) else next((k for k in range(n, ends) if lines[k] == indent + "{"), ends)
    is_public = found[2] == "pub " or bool(trait)
    head, body = "\n".join(lines[n : max(opens, n + 1)]), "\n".join(lines[opens : ends + 1])
    made = Function(found[3], owner, trait, crate, of, n + 1, ends + 1, is_public, head, body)
    for k in range(n, opens):
        clause = CLAUSE.match(lines[k])
        if clause:
            made.clauses.append(Clause(clause[1], clause[2] or "", k + 1, braced(lines, k)))
    return made


def braced(lines, n):
    """The text of a clause that begins on a line: from its brace to the one that closes it."""
    depth, text = 0, []
    for line in lines[n:]:
        text.append(line)
        depth += line.count("{") - line.count("}")
        if depth <= 0:
            break
    return "\n".join(text)
