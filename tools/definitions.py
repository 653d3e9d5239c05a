"""What the contracts of the crates name: the definitions in `specs`, directly or through others.

tools/reading.py makes docs/dev/READING.md of it.
"""
import re
from dataclasses import dataclass, field
from functools import lru_cache
from pathlib import Path
from typing import Dict, Iterable, Iterator, List, Optional, Sequence, Set, Tuple

ROOT = Path(__file__).resolve().parent.parent
CRATES = ROOT / "crates"
IDENT = re.compile(r"[A-Za-z_][A-Za-z0-9_'-]*")
USE = re.compile(r"^\s*(?:ghost )?use (Rattle\.\S+?)(?:\.\{(.*)\}| as (\S+?))?;?$")
HEAD = re.compile(r"(?:(?:abbrev|unfoldable|pub|record|data) )*(\S+)")


@dataclass
class Imports:
    """What a file imports: names with their module and their name there, and aliases of modules."""

    names: Dict[str, Tuple[str, str]] = field(default_factory=dict)
    modules: Dict[str, str] = field(default_factory=dict)


def imports(text: str) -> Imports:
    found = Imports()
    for match in filter(None, map(USE.match, text.splitlines())):
        module, items, alias = match.groups()
        for item in (items or "").split(","):
            parts = item.strip().split(" as ")
            if parts[0]:
                found.names[parts[-1].strip()] = (module, parts[0].strip())
        if alias:
            found.modules[alias] = module
    return found


class Spec:
    """A file of definitions: the lines of each by its name, comments included."""

    def __init__(self, path: Path) -> None:
        self.path = path
        text = path.read_text(encoding="utf-8")
        self.imports = imports(text)
        self.blocks: Dict[str, List[str]] = {}
        comment: List[str] = []
        name = ""
        for line in text.splitlines():
            if not line.strip() or line.startswith(("use ", "module ")):
                comment, name = [], ""
            elif line.startswith("--"):
                comment.append(line)
            elif re.match(r"[ }\]]", line):
                self.blocks.get(name, []).append(line)
            elif not line.startswith("infix"):
                head = HEAD.match(line)
                assert head, line
                name = head.group(1)
                self.blocks.setdefault(name, []).extend(comment + [line])
                comment = []

    @property
    def name(self) -> str:
        return str(self.path.relative_to(CRATES).with_suffix(""))


@lru_cache(maxsize=None)
def spec_at(path: Path) -> Spec:
    return Spec(path)


def spec(module: str) -> Optional[Spec]:
    """The file of a module `Rattle.CRATE.specs.A.B`; None for the kit's and for declared types."""
    parts = module.split(".")
    if len(parts) < 4 or parts[2] != "specs" or parts[3] == "declared":
        return None
    path = CRATES / parts[1] / "specs" / ("/".join(parts[3:]) + ".antt")
    return spec_at(path) if path.exists() else None


def code(lines: Iterable[str]) -> List[str]:
    return [line for line in lines if not line.lstrip().startswith("--")]


def words(lines: Iterable[str]) -> List[str]:
    """The identifiers of some lines, in order; `a.b` gives both."""
    return list(dict.fromkeys(word for line in code(lines) for word in IDENT.findall(line)))


def type_of(module: str) -> Optional[str]:
    """The type of the code that a module declares, with its crate."""
    parts = module.split(".")
    if "declared" not in parts or parts[0] != "Rattle":
        return None
    return "`%s::%s`" % (parts[1], parts[-2] if parts[-1] == "TheVariants" else parts[-1])


@dataclass
class Reach:
    """What is named, directly or not: definitions by file and name, and types of the code."""

    found: Dict[Tuple[Path, str], None] = field(default_factory=dict)
    types: Set[str] = field(default_factory=set)
    carried: Optional[str] = None  # a fact that is only carried from call to call

    def add(self, roots: List[str], known: Imports) -> None:
        queue: List[Tuple[List[str], Imports, Optional[Spec]]] = [(roots, known, None)]
        while queue:
            batch, known, here = queue.pop(0)
            for word in batch:
                target = self.target(word, known, here)
                if target and target not in self.found:
                    self.found[target] = None
                    there = spec_at(target[0])
                    queue.append((words(there.blocks[target[1]]), there.imports, there))

    def target(self, word: str, known: Imports, here: Optional[Spec]) -> Optional[Tuple[Path, str]]:
        """The definition that a word names; types are noted on the way."""
        if word == self.carried:
            return None
        module, name = known.names.get(word, (known.modules.get(word, ""), ""))
        kind = type_of(module)
        if kind:
            self.types.add(kind)
        if word in known.modules:
            return None
        where = spec(module) if module else here
        name = name or word
        return (where.path, name) if where and name in where.blocks else None


@dataclass(frozen=True)
class Contract:
    """Clauses of a function, and the file in which they stand."""

    path: Path
    function: str
    clauses: List[str]


def clauses_of(lines: Iterable[str], names: Sequence[Optional[str]]) -> List[str]:
    """The lines of the clauses of these names; None is a clause without a name."""
    kept, keep = [], False
    for line in lines:
        clause = re.match(r"\s*(?:ensures|requires) ?(\w+)?", line)
        if clause:
            keep = clause.group(1) in names
        elif line.strip().startswith("//"):
            keep = False
        if keep and line.strip():
            kept.append(line.strip())
    return kept


def contract(crate: str, function: str, names: Sequence[Optional[str]]) -> Contract:
    """The clauses of these names of a function's contract; a method is named by its type, too."""
    owner, _, name = function.rpartition("::")
    for path in sorted((CRATES / crate / "src").rglob("*.rt")):
        text = path.read_text(encoding="utf-8")
        begun = re.search(r"pub fn %s\b[^{;]*?(?=\n\s*(?:requires|ensures|//))" % name, text, re.S)
        if not begun or owner and "\nimpl %s {" % owner not in text:
            continue
        rest = text[begun.end():]
        body = re.search(r"\n *\{", rest)
        kept = clauses_of(rest[:body.start() if body else len(rest)].splitlines(), names)
        if kept:
            return Contract(path, function, kept)
    raise SystemExit("no contract %s::%s with %s" % (crate, function, names))


class Source:
    """A file of code: the clauses of its public contracts, and the values of its public types."""

    def __init__(self, path: Path, exported: Set[str]) -> None:
        text = path.read_text(encoding="utf-8")
        self.imports = imports(text)
        self.lines = text.splitlines()
        self.clauses: List[str] = []
        owner, is_trait, is_instance = None, False, False
        for at, line in enumerate(self.lines):
            begun = re.match(r"(?:pub )?(impl|trait)\b(?:<[^>]*>)? ?(?:.* for )?(\w+)", line)
            if begun:
                owner, is_trait = begun.group(2), begun.group(1) == "trait"
                is_instance = " for " in line
            elif line.startswith("}"):
                owner = None
            ghost = re.match(r"\s+ghost (\w+)(?: =|:) \{", line)
            if ghost and owner in exported and (is_trait or ghost.group(1) in ("Value", "view")):
                self.clauses += self.braced(at)
            call = re.match(r"\s*(pub )?(?:const )?(?:unsafe )?fn (\w+)", line)
            if not call:
                continue
            is_pub = is_trait or bool(call.group(1)) and not is_instance
            if owner in exported and is_pub if owner else call.group(2) in exported:
                self.clauses += self.contract(at)

    def braced(self, at: int) -> List[str]:
        """The lines from there up to the closing brace."""
        depth, taken = 0, []
        for line in self.lines[at:]:
            taken.append(line)
            depth += line.count("{") - line.count("}")
            if depth == 0:
                break
        return taken

    def contract(self, at: int) -> List[str]:
        """The clauses of the function that begins there."""
        taken, within = [], False
        for line in self.lines[at:]:
            if re.match(r"\s*\{\s*$", line):
                break
            within = within or bool(re.match(r"\s*(requires|ensures)\b", line))
            if within and not line.strip().startswith("//"):
                taken.append(line)
            if line.rstrip().endswith(";") or not within and line.rstrip().endswith("{"):
                break
        return taken


def exports(crate: Path) -> Set[str]:
    """The names that a crate hands out."""
    root = crate / "src" / "lib.rt"
    text = root.read_text(encoding="utf-8") if root.exists() else ""
    found = re.findall(r"^pub use [\w:]+?::(?:\{([^}]*)\}|(\w+));", text, re.M)
    names = (name.strip() for several, one in found for name in (several or one).split(","))
    return {name for name in names if name}


def misplaced() -> Iterator[str]:
    """The definitions that stand on the wrong side."""
    believed = Reach()
    for crate in sorted(CRATES.iterdir()):
        for path in sorted(crate.glob("src/**/*.rt")):
            source = Source(path, exports(crate))
            believed.add(words(source.clauses), source.imports)
    for path in sorted(CRATES.glob("*/specs/**/*.antt")):
        # a file of modules has no definitions, and an operator is no word
        if path.name == "Lib.antt" or path.with_suffix("").is_dir():
            continue
        is_inner = "inner" in path.relative_to(CRATES).parts
        for name in spec_at(path).blocks:
            if IDENT.match(name) and ((path, name) in believed.found) == is_inner:
                yield "%s: %s" % (spec_at(path).name, name)


def layers() -> List[str]:
    """The crates, each after those that it stands on."""
    rows = [line.split("#")[0].partition(":") for line in
            (ROOT / "crates.txt").read_text(encoding="utf-8").splitlines()]
    below = {name.strip(): crates.split() for name, _, crates in rows if name.strip()}
    order: Dict[str, None] = {}

    def put(name: str) -> None:
        for crate in below[name]:
            if crate in below and crate not in order:
                put(crate)
        order[name] = None

    for name in below:
        put(name)
    return list(order)


def in_layers(paths: Iterable[Path]) -> List[Path]:
    """Files of definitions, each after those that it names."""
    place = {name: at for at, name in enumerate(layers())}
    wanted = sorted(paths)
    order: Dict[Path, None] = {}

    def put(path: Path) -> None:
        order[path] = None
        for module, _ in spec_at(path).imports.names.values():
            there = spec(module)
            if there and there.path in wanted and there.path not in order:
                put(there.path)
        order[path] = order.pop(path)  # after what it names

    for path in wanted:
        if path not in order:
            put(path)
    return sorted(order, key=lambda path: place[path.relative_to(CRATES).parts[0]])
