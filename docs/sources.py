"""Reads the sources of the repository: definitions, what they rest on, and public calls with their clauses.

What docs/reading_list and docs/make_pages have in common. It reads text that is laid out as the kit's formatter does,
and is no compiler.
"""
import re
from collections import Counter, defaultdict
from collections.abc import Iterable, Iterator
from dataclasses import dataclass, field
from functools import cache
from pathlib import Path
from typing import NamedTuple

TOP = Path(__file__).resolve().parent.parent
CRATES = TOP / "crates"
HEAD = re.compile(r"^(?:pub )?(?:abbrev|unfoldable|record|data)\s+(?:pub\s+)?(\S+)")
MODULE = re.compile(r"^module _ (.*) where$")
USE = re.compile(r"(?:pub )?use (?:Rattle\.)?([\w.]+?)(?:\.\{(.*)\})?(?: as (\w+))?\s*$")
GHOST_USE = re.compile(r"^ *ghost (use [^;]*);", re.M)
PUB = r"^(?:pub(?:\(crate\))? )?"
TYPE = re.compile(PUB + r"(?:struct|enum) (\w+)[^;{]*?(?:\{(.*?)^\}|\((.*?)\);|;)", re.M | re.S)
VARIANT = re.compile(r"^ *[A-Z]\w*(?= ?[,({])", re.M)
CONSTANT = re.compile(PUB + r"const (\w+):", re.M)
DECLARED = re.compile(PUB + r"(?:struct|enum|const) (\w+)", re.M)
MODEL = re.compile(r"^impl(?:<.*>)? Model for (\w+)[^\n]* \{(.*?)^\}", re.M | re.S)
EXPORT = re.compile(r"^pub use (?:\w+::)*(\{.*?\}|\w+);", re.M | re.S)
PASSED_TYPES = re.compile(r"^pub use ([a-z]\w*)::(\{.*?\}|\w+);", re.M | re.S)
PASSED_MODULE = re.compile(r"^pub use Rattle\.([\w.]+)$", re.M)
WORD = re.compile(r"[^\s(){}\[\];,λ×→]+")
LAYER = re.compile(r"# (.*)")
CRATE = re.compile(r"([a-z]\w*)[^:#]*:")
ITEM = re.compile(r"(?:pub(?:\(crate\))? )?(struct|enum|trait|const|impl|fn)\b")
CLAUSE = re.compile(r"(requires|ensures)\*? +(?:(\w+) +)?\{ ?(.*?) ?\};?$", re.S)
MEMBER = re.compile(r"    ghost (\w+)(?::| =) (\{.*?\});$", re.M | re.S)
# What the kit makes of the members of a trait that contracts see.
GHOSTS = "Ghosts"
# What an impl says of its own proofs, and contracts do not see.
UNSEEN = {"laws", "total", "respects_eq", "matches_eq", "matches_partial_cmp"}


class Missing(Exception):
    """Something that is named and is not there."""


class Named(NamedTuple):
    """A name in a module."""

    module: str
    name: str


@dataclass
class Specs:
    """One file of definitions: its imports, the text of each in it, its lines, and which `data` each case is of.

    Beside these stands what is said in words: of the file, of each definition, and of the fields of records.
    """

    imports: dict[str, Named] = field(default_factory=dict)
    aliases: dict[str, str] = field(default_factory=dict)
    bodies: dict[str, str] = field(default_factory=dict)
    heads: dict[str, str] = field(default_factory=dict)
    lines: Counter[str] = field(default_factory=Counter)
    cases: dict[str, str] = field(default_factory=dict)
    said: str = ""
    sentences: dict[str, str] = field(default_factory=dict)
    fields: dict[str, dict[str, str]] = field(default_factory=dict)

    @classmethod
    def read(cls, path: Path) -> "Specs":
        """What stands in a file."""
        made, name = cls(), ""
        whole, parameters = unindented(path.read_text(encoding="utf-8"))
        made.read_words(whole)
        text = re.sub(r"--.*", "", whole)
        made.count(text)
        for line in re.sub(r"\n +(?=\S)", " ", text).splitlines():
            head = HEAD.match(line)
            if line.startswith(("use ", "pub use ")):
                made.read_use(line)
            elif head:
                name = head[1]
                made.bodies[name] = made.heads[name] = line
            elif line.strip() and not line.startswith(("infix", "pub mod", "mod")):
                made.bodies[name] += f" {line}"
        for name, body in made.bodies.items():
            cases = re.sub(r"\(.*?\)", "", body.partition(" where ")[2]) if re.match(r"(?:pub )?data\b", body) else ""
            made.cases.update((case, name) for case in re.findall(r"(\S+) :", cases))
        for name, more in parameters.items():
            made.bodies[name] += f" {more}"
        return made

    def read_words(self, text: str) -> None:
        """Takes in the comments: the one at the top, and those right above definitions and fields."""
        comment: list[str] = []
        record, top = "", True
        for line in text.splitlines():
            stripped = line.strip()
            head = HEAD.match(line)
            given = re.match(r"  (?:pub )?(\S+) :", line) or re.match(r"  pub (\S+)$", line)
            if stripped.startswith("--"):
                comment.append(stripped[2:].strip())
                continue
            words = sentence(comment)
            if top:
                self.said, top = words, False
            elif head:
                self.sentences[head[1]] = words
                self.fields[head[1]] = {}
                record = head[1] if re.match(r"(?:pub )?(?:record|data)\b", line) else ""
            elif given and record:
                self.fields[record][given[1]] = words
            comment = []

    def count(self, text: str) -> None:
        """Counts the lines of each definition of a file without comments."""
        name = ""
        for line in text.splitlines():
            head = HEAD.match(line)
            name = head[1] if head else name
            if name and line.strip() and not line.startswith(("use ", "pub use ", "infix", "pub mod", "mod")):
                self.lines[name] += 1

    def read_use(self, line: str) -> None:
        """Takes in what a line imports."""
        found = USE.match(line)
        if not found:
            raise Missing(f"this is no `use` line: {line}")
        module, names, alias = home(found[1]), found[2], found[3]
        if alias:
            self.aliases[alias] = module
        for name in (names or "").split(","):
            old, _, new = name.strip().partition(" as ")
            self.imports[new or old] = Named(module, old)

    def uses(self, own: str, name: str) -> Iterator[Named]:
        """What the text of a definition refers to; `own` is this file's module."""
        yield from self.cites(own, self.bodies[name])

    def cites(self, own: str, text: str) -> Iterator[Named]:
        """What a term refers to; `own` is this file's module."""
        words = words_of(text)
        yield from behind_points(text, self.aliases)
        if "do" in words:
            words.add(">>=")
        known = [*self.imports, *self.bodies]
        words.update(it for it in known if "◌" in it and all(part in words for part in it.split("◌") if part))
        for word in words:
            if word in self.imports:
                yield self.imports[word]
            elif word in self.bodies or word in self.cases:
                yield Named(own, word)

    def fields_of(self, name: str) -> dict[str, str]:
        """The public fields of a record, each with its type."""
        parts = re.split(r"\s+pub (\S+) : ", self.bodies[name].partition(" where ")[2])[1:]
        return dict(zip(parts[::2], map(str.strip, parts[1::2])))

    def type_of(self, name: str) -> str:
        """The type of a definition; of a record its parameters, if it has any."""
        head = re.split(r" where\b", self.heads[name], maxsplit=1)[0]
        if re.match(r"(?:pub )?(?:record|data)\b", head):
            return head.split(f" {name} ", 1)[1].rpartition(":")[0].strip()
        return head.split(" : ", 1)[1].strip()


def unindented(text: str) -> tuple[str, dict[str, str]]:
    """The text of a file with what stands in nameless modules moved to the left, and the parameters of each of it."""
    made: list[str] = []
    parameters: dict[str, str] = {}
    given = ""
    for line in text.splitlines():
        module = MODULE.match(line)
        if module:
            given = module[1]
            continue
        if line and not line.startswith(" "):
            given = ""
        line = line.removeprefix("  ") if given else line
        head = HEAD.match(line)
        if given and head:
            parameters[head[1]] = given
        made.append(line)
    return "\n".join(made) + "\n", parameters


def sentence(lines: list[str]) -> str:
    """The lines of a comment as one text; an empty line stands between two parts."""
    return re.sub(r" *\n *", "\n", " ".join(line or "\n" for line in lines)).strip()


def words_of(text: str) -> set[str]:
    """The words of a term, and the values whose fields it takes."""
    words = set()
    for word in WORD.findall(re.sub(r'"[^"]*"', " ", text)):
        words.update([word, word.partition(".")[0]])
    return words


def behind_points(text: str, aliases: dict[str, str]) -> Iterator[Named]:
    """The names behind a point in a module that has another name here. Else a field of a value stands there."""
    for word in WORD.findall(re.sub(r'"[^"]*"', " ", text)):
        head, _, tail = word.partition(".")
        if head in aliases and tail:
            yield Named(aliases[head], tail.split(".")[0])


@dataclass
class Source:
    """One file of the program: its types with the text of their fields, its constants, and the values of its types."""

    types: dict[str, str]
    constants: list[str]
    names: list[str]
    values: dict[str, list[Named]]
    imports: dict[str, str]

    @classmethod
    def read(cls, path: Path) -> "Source":
        """What stands in a file."""
        text = re.sub(r"//.*", "", path.read_text(encoding="utf-8"))
        types = {found[1]: found[2] or found[3] or "" for found in TYPE.finditer(text)}
        values = {found[1]: list(values_of(found[2])) for found in MODEL.finditer(text)}
        uses = re.findall(r"^use (\w+)(?:::\w+)*::(\{.*?\}|\w+);", text, re.M | re.S)
        imports = {name: crate for crate, names in uses for name in re.findall(r"\w+", names)}
        return cls(types, CONSTANT.findall(text), DECLARED.findall(text), values, imports)

    def uses(self, crate: str, name: str) -> Iterator[Named]:
        """What a type of this file leads to: the value that contracts see in its place, or the types of its fields."""
        if name in self.values:
            yield from self.values[name]
            return
        # a variant may have the name of a type
        fields = VARIANT.sub("", self.types.get(name, ""))
        for word in set(re.findall(r"\b[A-Z]\w+", fields)) - {name}:
            owner = self.imports.get(word, crate)
            module = declared(crate if owner == "crate" else owner, word)
            if module:
                yield Named(module, word)


def values_of(body: str) -> Iterator[Named]:
    """The names in the value that contracts see in the place of a type."""
    uses = re.findall(r"use Rattle\.([\w.]+)\.\{(.*?)\}", body)
    imports = {name.strip(): home(module) for module, names in uses for name in names.split(",")}
    value = re.search(r"ghost Value = \{(.*?)\};", body)
    for word in WORD.findall(value[1] if value else ""):
        if word in imports:
            yield Named(imports[word], word)


def declared(crate: str, name: str) -> str | None:
    """The module of a type of a crate, by its name; None where it is no type of the repository."""
    for file in sorted((CRATES / crate / "src").glob("*.rt")):
        if re.search(rf"{PUB}(?:struct|enum) {name}\b", file.read_text(encoding="utf-8"), re.M):
            stem = "" if file.stem == "lib" else f"{file.stem}."
            return f"{crate}.specs.declared.{stem}{name}"
    for lower, names in passed_on(crate):
        if name in re.findall(r"\w+", names):
            return declared(lower, name)
    return None


def passed_on(crate: str) -> list[tuple[str, str]]:
    """The crates below whose types a crate passes on, each with their names."""
    file = CRATES / crate / "src" / "lib.rt"
    return PASSED_TYPES.findall(file.read_text(encoding="utf-8")) if file.is_file() else []


@cache
def home(module: str) -> str:
    """The module in which the definitions of this one stand: that of a crate below, where a crate passes them on."""
    crate, _, path = module.partition(".specs.")
    passed = CRATES / crate / "specs" / "Lib.antt"
    if not path or path.startswith(("declared.", "contracts.")) or not passed.is_file():
        return module
    if (passed.parent / f"{path.replace('.', '/')}.antt").is_file():
        return module
    for lower in PASSED_MODULE.findall(passed.read_text(encoding="utf-8")):
        if lower.endswith(f".specs.{path}"):
            return home(lower)
    return module


def path_of(module: str) -> Path | None:
    """The file of a module; None for a module outside the repository, or one that the kit makes of contracts."""
    crate, _, path = module.split(".", 2)
    if not (CRATES / crate).is_dir() or path.startswith("contracts."):
        return None
    if not path.startswith("declared."):
        return CRATES / crate / "specs" / f"{path.replace('.', '/')}.antt"
    path = path.removeprefix("declared.").removesuffix(".TheVariants").removesuffix(".TheConstants")
    stem = [part for part in path.split(".") if part[0].islower()]
    return CRATES / crate / "src" / f"{'/'.join(stem or ['lib'])}.rt"


class Trust:
    """What some names rest on: the names by their file, or by a module outside."""

    def __init__(self, starts: Iterable[Named]) -> None:
        self.files: dict[Path, Specs | Source] = {}
        self.found: dict[Path | str, set[str]] = defaultdict(set)
        todo, seen = list(starts), set()
        while todo:
            it = todo.pop()
            path = path_of(it.module)
            file = self.file(path) if path else None
            if isinstance(file, Source) and it.module.endswith(".TheVariants"):
                module = it.module.removesuffix(".TheVariants")
                it = Named(module, module.rsplit(".", 1)[1])
            if isinstance(file, Specs):
                it = Named(it.module, file.cases.get(it.name, it.name))
            if it not in seen:
                seen.add(it)
                self.found[path or it.module].add(it.name)
                todo += self.uses(path, file, it) if path and file else []

    def file(self, path: Path) -> Specs | Source:
        """What stands in a file, which is read once."""
        if path not in self.files:
            if not path.is_file():
                raise Missing(f"there is no {path.relative_to(TOP)}")
            self.files[path] = Source.read(path) if path.suffix == ".rt" else Specs.read(path)
        return self.files[path]

    def uses(self, path: Path, file: Specs | Source, it: Named) -> list[Named]:
        """What a name of a file leads to."""
        if isinstance(file, Specs):
            if it.name not in file.bodies:
                raise Missing(f"there is no {it.name} in {path.relative_to(TOP)}")
            return list(file.uses(it.module, it.name))
        if it.name == GHOSTS:
            return []
        if it.name not in file.values and it.name not in file.types and it.name not in file.constants:
            raise Missing(f"there is no {it.name} in {path.relative_to(TOP)}")
        return list(file.uses(it.module.split(".")[0], it.name))


@dataclass(frozen=True)
class Clause:
    """A clause of a call: which kind it is, its name if it has one, its text, and the comment above it."""

    kind: str
    name: str
    text: str
    sentence: str


@dataclass
class Item:
    """A type, a constant, a trait, an `impl` or a call of a file: whose it is, its comment, its head and its clauses.

    The head of a call is its signature, that of an `impl` its first line. `members` are what contracts see of a trait
    or of an `impl`, by their names, and `parts` the variants and the fields of a type, each with its comment.
    """

    kind: str
    name: str
    owner: str
    is_pub: bool
    sentence: str
    head: str
    clauses: list[Clause] = field(default_factory=list)
    members: dict[str, str] = field(default_factory=dict)
    parts: dict[str, str] = field(default_factory=dict)


@dataclass
class Program:
    """One file of the program: its items, in order, and what the names in their clauses are."""

    items: list[Item]
    imports: dict[str, Named]
    aliases: dict[str, str]

    @classmethod
    def read(cls, path: Path) -> "Program":
        """What stands in a file."""
        text = path.read_text(encoding="utf-8")
        names = Specs()
        for line in GHOST_USE.findall(text):
            names.read_use(re.sub(r"\s+", " ", line))
        return cls(list(items_of(text.splitlines())), names.imports, names.aliases)

    def cites(self, text: str) -> list[Named]:
        """What a term names of the repository's definitions, each once, in the order of the text."""
        words = re.findall(r"[^\s(){}\[\];,.λ×→]+", text)
        found = [*(self.imports[word] for word in words if word in self.imports), *behind_points(text, self.aliases)]
        return [it for it in dict.fromkeys(found) if ".specs." in it.module and path_of(it.module)]


def items_of(lines: list[str]) -> Iterator[Item]:
    """The items of a file, each `impl` and each trait in front of its calls."""
    block: Item | None = None
    comment: list[str] = []
    at = 0
    while at < len(lines):
        line = lines[at]
        stripped, indent = line.strip(), len(line) - len(line.lstrip())
        found = ITEM.match(stripped) if indent in (0, 4) else None
        if stripped.startswith("///"):
            comment.append(stripped[3:].strip())
        elif stripped.startswith("#["):
            at = last_of(lines, at, "[]")
        elif found and (indent == 0 or found[1] == "fn"):
            end = head_of(lines, at, " " * indent)
            item = made_item(found[1], lines[at:end + 1], block if indent else None, sentence(comment))
            comment = []
            at = end
            if found[1] in ("impl", "trait"):
                block = item if not lines[end].endswith("}") else None
            elif lines[end].endswith("{"):
                at = next(place for place in range(end + 1, len(lines)) if lines[place].startswith(" " * indent + "}"))
                item.parts = parts_of(lines[end + 1:at])
            yield item
        elif block and stripped.startswith("ghost ") and not stripped.startswith("ghost use"):
            end = last_of(lines, at, "{}")
            member = MEMBER.match("\n".join(lines[at:end + 1]))
            if member and (member[1] == "Value" if " Model for " in block.head else member[1] not in UNSEEN):
                block.members[member[1]] = member[2]
            at, comment = end, []
        elif stripped:
            block = None if line == "}" else block
            comment = []
        at += 1


def last_of(lines: list[str], at: int, brackets: str) -> int:
    """The line in which the brackets that the line at `at` opens are closed."""
    depth = 0
    for place in range(at, len(lines)):
        depth += lines[place].count(brackets[0]) - lines[place].count(brackets[1])
        if depth <= 0:
            return place
    return len(lines) - 1


def head_of(lines: list[str], at: int, indent: str) -> int:
    """The last line of the head of an item, which has the brace that opens its body, or a semicolon."""
    has_clauses, depth = False, 0
    for place in range(at, len(lines)):
        line = lines[place]
        if line in (f"{indent}{{", f"{indent}{{}}"):
            return place
        has_clauses = has_clauses or line.strip().startswith(("requires", "ensures"))
        if not has_clauses and line.endswith((" {", " {}")):
            return place
        depth += line.count("{") - line.count("}")
        if depth == 0 and line.endswith(";"):
            return place
    raise Missing(f"the end of the head of: {lines[at]}")


def made_item(kind: str, lines: list[str], block: Item | None, words: str) -> Item:
    """An item of the lines of its head."""
    starts = [at for at, line in enumerate(lines) if line.strip().startswith(("requires", "ensures"))]
    first = starts[0] if starts else len(lines)
    while first < len(lines) and lines[first - 1].strip().startswith("//"):
        first -= 1
    head = " ".join(line.strip() for line in lines[:first] if not line.strip().startswith("//"))
    head = re.sub(r" ?(\{\}?|;)$", "", head)
    bare = without_generics(head)
    if kind == "impl":
        name = bare.split(" for ")[-1].removeprefix("impl ").strip().split(" ")[0]
    else:
        name = re.split(r"\W", bare.split(f"{kind} ", 1)[1], maxsplit=1)[0]
    is_pub = head.startswith("pub ") or (block is not None and block.kind == "trait")
    item = Item(kind, name, block.name if block else "", is_pub, words, head.removeprefix("pub "))
    item.clauses = clauses_of(lines[first:])
    return item


def without_generics(text: str) -> str:
    """A head without what stands between angle brackets."""
    text = text.replace("->", " ")
    while re.search(r"<[^<>]*>", text):
        text = re.sub(r"<[^<>]*>", "", text)
    return re.sub(r"\s+", " ", text)


def clauses_of(lines: list[str]) -> list[Clause]:
    """The clauses at the end of a head."""
    made: list[Clause] = []
    comment: list[str] = []
    at = 0
    while at < len(lines):
        stripped = lines[at].strip()
        if stripped.startswith("//"):
            comment.append(stripped[2:].strip())
        elif stripped.startswith(("requires", "ensures")):
            end = last_of(lines, at, "{}")
            found = CLAUSE.match(" ".join(line.strip() for line in lines[at:end + 1]))
            if not found:
                raise Missing(f"the form of a clause in: {stripped}")
            made.append(Clause(found[1], found[2] or "", found[3], sentence(comment)))
            comment, at = [], end
        at += 1
    return made


def parts_of(lines: list[str]) -> dict[str, str]:
    """The variants or the public fields of a type, each with its comment."""
    made: dict[str, str] = {}
    comment: list[str] = []
    for line in lines:
        stripped = line.strip()
        found = re.match(r"    (?:pub )?(\w+)", line)
        if stripped.startswith("///"):
            comment.append(stripped[3:].strip())
        elif found and not stripped.startswith(("//", "#")):
            made[found[1]] = sentence(comment)
            comment = []
    return made


@dataclass
class Crate:
    """A crate: its name, what its first page says, and its files of the program by their paths."""

    name: str
    about: str
    files: dict[Path, Program]
    exports: set[str]

    def is_public(self, item: Item) -> bool:
        """Whether other crates may name an item, or the type or the trait that it belongs to."""
        return (item.kind == "impl" or item.is_pub) and (item.owner or item.name) in self.exports

    def public(self) -> Iterator[tuple[Path, Program, Item]]:
        """The items that other crates may name, in the order of their files."""
        for path, file in self.files.items():
            yield from ((path, file, item) for item in file.items if self.is_public(item))


@cache
def crate_of(name: str) -> Crate:
    """A crate by its name."""
    top = next(path for path in (CRATES / name / "src" / file for file in ("lib.rt", "main.rt")) if path.exists())
    text = top.read_text(encoding="utf-8")
    about = sentence([line[3:].strip() for line in text.splitlines() if line.startswith("//!")])
    files = {path: Program.read(path) for path in [top, *sorted(set(top.parent.glob("*.rt")) - {top})]}
    exports = {name for names in EXPORT.findall(text) for name in re.findall(r"\w+", names)}
    exports.update(item.name for item in files[top].items if item.is_pub)
    return Crate(name, about, files, exports)


class Layer(NamedTuple):
    """What crates.txt says above some crates, and these crates."""

    name: str
    crates: list[str]


def layers() -> list[Layer]:
    """The layers, lowest first, without crates of tests."""
    made: list[Layer] = []
    for line in (TOP / "crates.txt").read_text(encoding="utf-8").splitlines():
        layer, crate = LAYER.match(line), CRATE.match(line)
        if layer:
            made.append(Layer(layer[1], []))
        elif crate and not crate[1].endswith("_tests"):
            made[-1].crates.append(crate[1])
    return [layer for layer in made if layer.crates]
