"""For the scripts beside it: what sources (`.rt`) and definitions (`.antt`) declare, import and name."""
import re
from collections import namedtuple
from functools import cache
from pathlib import Path

import crates

TOP = Path(crates.TOP)
WORD = re.compile(r"[^\s(){}\[\],;.→λ←]+")
# What stands before the name of a definition.
BEFORE_NAME = ("abbrev", "unfoldable", "pub", "data", "record", "ghost", "opaque")
# Words in backticks.
TICKED = re.compile(r"(?<!`)(`+)(?!`)(.+?)(?<!`)\1(?!`)", re.S)

KINDS = "struct|enum|trait|const fn|fn|const|type"
# Where the head of an item ends: before its body, its clauses, or a semicolon.
END = r"(?=\s*\{\}?$|;$|\s*\n\s+(?:requires|ensures|ghost)\b)"
# The head of a file whose calls are for other crates of the library alone.
INTERNAL = re.compile(r"//! What .* call[^\n]*, and no ")
SIGNATURE = re.compile(r"(pub(\([^)]*\))?\s+)?(const\s+)?(unsafe\s+)?fn\s")
BLOCK = re.compile(r"(pub(\([^)]*\))?\s+)?(trait|impl)\b")
CLAUSE = re.compile(r"(ensures|requires)\*?\b|ghost\s+(\w+)\s*[:=]")
# A public declaration, or an `impl`: its head in one line, and what stands below it.
Item = namedtuple("Item", "crate path kind name head body")


@cache
def source(path):
    """A file without its comments and attributes."""
    return re.sub(r"^\s*#!?\[.*\n|\s*//.*", "", path.read_text(), flags=re.M)


@cache
def libraries():
    """The crates that `fastmetrics` is made of, in the order of crates.txt, and it, each with its files."""
    found = crates.crates_of()
    names = [it for it in found if it in [*found["fastmetrics"].libraries, "fastmetrics"]]
    return {it: sorted(Path(found[it].folder).glob("src/**/*.rt")) for it in names}


def joined(text):
    """A text in one line, without `pub`, what only a body needs, and the value of a constant if it is no literal."""
    text = re.sub(r"\bpub |\b(?:mut |_)(?=\w+: )", "", " ".join(text.split()))
    text = re.sub(r"(?<=[(<\[]) |, (?=[)>\]])|,(?= \}|$)", "", text)
    return re.sub(r'^(const \w+: [^=]*?) = (?!\d+$|"|true$|false$).*', r"\1", text)


@cache
def items():
    """Each public declaration and each `impl` of the libraries, file by file."""
    found = []
    files = [(crate, path) for crate, paths in libraries().items() for path in paths]
    for crate, path in ((crate, path) for crate, path in files if not INTERNAL.match(path.read_text())):
        for text in re.split(r"^(?=[a-z])(?!where\b)", source(path), flags=re.M):
            kind = re.match(rf"pub ({KINDS}) (\w+)|(impl)\b", text)
            if kind:
                head = re.match(rf".*?{END}", text, re.S | re.M)[0]
                found.append(Item(crate, path, kind[1] or kind[3], kind[2], joined(head), text[len(head) :]))
    return found


def strip_comment(line):
    """A line of definitions without its comment, which begins after a blank, and outside of texts."""
    begins = (it.start() for it in re.finditer(r"(?:^|(?<=[ \t]))--", line))
    return line[: next((at for at in begins if line.count('"', 0, at) % 2 == 0), None)].rstrip()


def import_of(line):
    """What a `use` line imports: each name with its module and its name there."""
    found = re.match(r"(?:pub )?(?:ghost )?use Rattle\.([\w.]+?)\.\{(.*)\};?\s*$", line.strip())
    names = (re.match(r"(\S+)(?: as (\S+))?$", it.strip()) for it in found[2].split(",")) if found else ()
    return {it[2] or it[1]: (found[1], it[1]) for it in names if it}


class Module:
    """A file of definitions: what it imports, each definition's lines, the head of the module around it, and the definition that
    each field or constructor belongs to."""

    def __init__(self, path):
        self.path, self.imports, self.definitions, self.heads, self.owner = path, {}, {}, {}, {}
        current, head, level = None, None, 0
        for line in filter(None, map(strip_comment, path.read_text().split("\n"))):
            text, indent = line.strip(), len(line) - len(line.lstrip())
            if re.match(r"(pub )?(use|mod) ", text):
                self.imports |= import_of(text)
                current = None
                continue
            if text.startswith("module "):
                current, head, level = None, text, indent + 2
                continue
            if indent <= level - 2:
                head, level = None, 0
            if indent == level:
                current = next(it for it in text.split() if it not in BEFORE_NAME)
                self.definitions.setdefault(current, [])
                self.heads |= {current: head} if head else {}
            if current is None:
                continue
            self.definitions[current].append(text)
            part = re.match(r"(?:pub )?([^\s(){}:]+) :", text)
            if part and indent > level and "data" in self.definitions[current][0].split()[:2]:
                self.owner.setdefault(part[1], current)


@cache
def module(name):
    """The file of definitions of this name, or None for one of std."""
    crate, _, rest = name.partition(".")
    path = TOP / "crates" / crate / f"{rest.replace('.', '/')}.antt"
    return Module(path) if path.exists() else None


def words_of(lines):
    for line in lines:
        yield from WORD.findall(re.sub(r'"(\\.|[^"\\])*"', "", line))


def reach(starts):
    """The definitions that these (module, name) reach."""
    found, left = set(), list(starts)
    while left:
        name, word = left.pop()
        here = module(name)
        word = here.owner.get(word, word) if here and word not in here.definitions else word
        if here is None or (name, word) in found or word not in here.definitions:
            continue
        found.add((name, word))
        for other in words_of([*here.definitions[word], here.heads.get(word, "")]):
            if other in here.imports:
                left.append(here.imports[other])
            elif other in here.definitions or other in here.owner:
                left.append((name, other))
    return found


def clauses_of(text, function):
    """The clauses of the public functions of this name in a source."""
    for found in re.finditer(rf"^( *)pub fn {function}\b", text, re.M):
        head = text[found.end() : text.index(f"\n{found[1]}{{", found.end())]
        clauses = re.search(r"^ *(requires|ensures)\b", head, re.M)
        if clauses:
            yield head[clauses.start() :]


def named_in(parts, text):
    """What these parts of a source name of the definitions that it imports, each as its module and its name."""
    imports = {}
    for line in text.split("\n"):
        imports |= import_of(line) if "ghost use" in line else {}
    words = {word for part in parts for word in words_of(part.split("\n"))}
    return {imports[it] for word in words for it in (word, word.split(".")[0]) if it in imports}


def until(lines, at, is_whole):
    """The text from a line on, up to the line with which it is whole, and the index after that."""
    text, end = lines[at], at + 1
    while not is_whole(text) and end < len(lines):
        text, end = text + "\n" + lines[end], end + 1
    return text, end


def is_closed(text):
    return "{" in text and text.count("{") <= text.count("}")


def public_clauses(text):
    """The public clauses of a source: each `ensures` and `requires` of a public function or trait, each ghost member of a public
    trait or of an implementation of one, and the `Value` of a model. Those of `pub(crate)` functions count as private."""
    block_is_public = is_model = is_public = False
    lines, at = text.split("\n"), 0
    while at < len(lines):
        line, end = lines[at], at + 1
        block, signature, clause = BLOCK.match(line), SIGNATURE.match(line.strip()), CLAUSE.match(line.strip())
        if block:
            head = until(lines, at, lambda it: "{" in it)[0]
            is_model = "Model for" in head
            block_is_public = " for " in head if block[3] == "impl" else bool(block[1]) and block[2] is None
        if signature:
            is_public = signature[2] is None if signature[1] else block_is_public and line.startswith(" ")
        if clause:
            whole, end = until(lines, at, is_closed)
            if is_public if clause[2] is None else block_is_public and (clause[2] == "Value" or not is_model):
                yield whole
        at = end


def home(start):
    """Where a definition is that a crate's specs re-export."""
    name, word = start
    crate, _, rest = name.partition(".")
    listing = TOP / "crates" / crate / "specs/Lib.antt"
    if not module(name) and listing.exists():
        for found in re.findall(r"^ *pub use Rattle\.([\w.]+)$", listing.read_text(), re.M):
            if found.rpartition(".")[2] == rest.rpartition(".")[2]:
                return home((found, word))
    return start
