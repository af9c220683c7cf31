#!/usr/bin/env python3
"""Compares docs/public_api.txt with the sources, or writes it, and finds public calls that docs/CALLS.md doesn't name, or that
nothing makes.

    scripts/public.py [--write]

A name is public if `fastmetrics` has it, by itself or in a module that it re-exports. A public call is a public function, a `pub
fn` of a public type, or a function of a public trait. Looked at are

- docs/public_api.txt, which --write renews: of each module its names by the crate that declares them, and the signatures of what
  they have, which stand in the first module of those that have the name;
- the words of docs/CALLS.md: they name each public name and call, of those with a unit, with a description, and for each whole
  number one. What they have in backticks stands in docs/public_api.txt;
- the tests, the programs without their functions that nothing calls, and the one that replays scripts: one of their files makes
  each public call, and names its type.

Prints a line for each difference; the status is 0 if there is none.
"""
import difflib
import re
import sys
import textwrap
from collections import Counter
from fnmatch import fnmatchcase
from functools import cache

from sources import END, KINDS, TICKED, TOP, items, joined, libraries, source

LISTING, PAGE = TOP / "docs/public_api.txt", TOP / "docs/CALLS.md"
# The head of the listing.
HEAD = """\
// The public names of fastmetrics, by module and the crate that declares them, and their signatures. scripts/public.py --write
// writes this file; docs/CALLS.md says what the calls do. In a trait `{ .. }` marks a function that is given. A type without a
// `use` line, such as `HistogramOf`, can't be named.
"""
# Traits of std that stand at each type that has them.
TRAITS = {"TryDefault", "Default", "Iterator", "Deref"}
# Functions for other crates of the library that stand beside public ones.
HIDDEN = {"encode_all", "encode_written", "whole_millis"}
# Calls of which docs/CALLS.md names one.
TOGETHER = re.compile(r"\w+_with_unit|\w*(counter|gauge|histogram)s?_with|encode_[iu](\d+|size)(_value)?")
# Made by the library itself, so that tests see what they do by what calls them: by `collect`, `encode` and families, by roots,
# and by `find_bucket` and `observe_all`.
INSIDE = """
    Collected::names Collector::* Holds::* Made::* Encode*Value::encode EncodeLabelName::encode
    ValueEncoder::* LabelSetEncoder::encode_named StateSetValue::* ExemplarLabels::are_taken Probe::* Gate::*
""".split()
# What the words of docs/CALLS.md have from elsewhere: from std, and from definitions.
FOREIGN = {"None", "as_slice", "default", "proc", "HasHistory", "is_document"}
# What no program can call, since none can get the value, and what the library calls in another form: a listed metric.
NEVER = {"MetricFamilyEncoder::encode"}
# What stands for the name of a type where its calls are made: the call that gives one.
GIVEN_BY = {"RegistryBuilder": "builder", "RegistrySubsystemBuilder": "subsystem_builder", "Subsystem": "subsystem"}

REEXPORT = re.compile(r"^ *pub use (\w+)((?:::\w+)*)(?:::\{([^}]*)\})?(?: as (\w+))?;", re.M)
HEAD_OF_CALL = re.compile(r"^(?:const )?fn (\w+)(?:<.*?>)?\((&?(?:'\w+ )?(?:mut )?self\b)?", re.M)
# Where a line of the listing is cut.
LONG = re.compile(r"(?=.{119})(.{40,115}(?:[,{]|(?= ->))) ")
OF_STD = re.compile(r"^use (std(?:::[a-z_]+)*)::(?:\{([^}]*)\}|(\w+));", re.M)
# A call by a value, by a path, and by the name alone.
CALLED = re.compile(r"(\.\s*)?(::)?\b(\w+)(?:::<[^()]*?>)?\s*\(|(::)(\w+)\b")

# The files of the libraries, and the types that these keep to themselves.
TEXT = "".join(source(path) for paths in libraries().values() for path in paths)
PRIVATE = set(re.findall(r"^(?:struct|enum) (\w+)", TEXT, re.M))


def reexported(crate, text):
    """Each name that a text re-exports, with its crate and its name there, which is empty for a crate."""
    for first, path, listed, alias in REEXPORT.findall(text):
        for name in (it.strip() for it in (listed or path.split("::")[-1]).split(",")):
            if name or alias:
                yield alias or name, first if first in libraries() else crate, name


@cache
def declaration(crate, name):
    """The declaration of a name that a crate has, or None for a module."""
    found = [it for it in items() if (it.crate, it.name) == (crate, name)]
    if len(found) > 1:
        sys.exit(f"{crate} declares {name} in {found[0].path} and in {found[1].path}: scripts/public.py can't tell them apart")
    for other, home, its_name in () if found else (it for path in libraries()[crate] for it in reexported(crate, source(path))):
        if other == name and home != crate:
            found.append(declaration(home, its_name))
    return next((it for it in found if it), None)


def modules(path, crate, folder, text):
    """A module and all that can be had from it, each by its path with its names and their declarations."""
    own = re.sub(r"^pub mod \w+ \{\n.*?^\}", "", text, flags=re.M | re.S)
    exports = list(reexported(crate, own))
    names = {name: declaration(crate, name) for _, name in re.findall(rf"^pub ({KINDS}) (\w+)", own, re.M)}
    names |= {name: declaration(home, its_name) for name, home, its_name in exports if its_name}
    yield path, {name: it for name, it in names.items() if it and name not in HIDDEN}
    for name, inner in re.findall(r"^pub mod (\w+)(?: \{\n(.*?)^\}|;)", text, re.M | re.S):
        yield from modules(f"{path}::{name}", crate, folder / name, textwrap.dedent(inner) or source(folder / f"{name}.rt"))
    for name, home, its_name in exports:
        if home != crate and not names.get(name):
            for other, found in from_root(home):
                if f"{other}::".startswith(f"::{its_name}::" if its_name else ""):
                    yield f"{path}::{name}{other.removeprefix(f'::{its_name}')}", found


def from_root(crate):
    folder = TOP / "crates" / crate / "src"
    return modules("", crate, folder, source(folder / "lib.rt"))


@cache
def public():
    """What each module of `fastmetrics` has, by its path: each name with its declaration."""
    return {path.removeprefix("::"): names for path, names in from_root("fastmetrics")}


def meant(item):
    """The type that a type alias stands for in the end, or what else is declared."""
    other = item.kind == "type" and declaration(item.crate, re.search(r" = (\w+)", item.head)[1])
    return meant(other) if other else item


@cache
def by_meaning():
    """The public declarations, those of the same type together."""
    found = {}
    for item in dict.fromkeys(it for names in public().values() for it in names.values()):
        found.setdefault(meant(item), []).append(item)
    return found


@cache
def parts(item):
    """The name of the trait, which may be empty, and of the type of an `impl`."""
    head = item.head.removeprefix("impl").replace("->", "")
    while "<" in head:
        head = re.sub(r"<[^<>]*>", "", head)
    trait, _, type_ = head.rpartition(" for ")
    return [re.match(r"\W*(\w*)", it)[1] for it in (trait, type_)]


@cache
def implementations():
    """The `impl` blocks of each type, those beside its declaration first."""
    found = {}
    for item in (it for it in items() if it.kind == "impl"):
        its = declaration(item.crate, parts(item)[1])
        found.setdefault(its and meant(its), []).append(item)
    return {it: sorted(its, key=lambda other: not it or other.path != it.path) for it, its in found.items()}


def members(item):
    """What a trait has, or what is public in an `impl`, each in one line."""
    for text in re.split(r"^(?=    (?:pub |const |fn |type |ghost ))", item.body.rstrip()[:-1], flags=re.M):
        found = re.match(rf"    {'' if item.kind == 'trait' else 'pub '}(?:const )?(?:fn|const|type) .*?{END}", text, re.S | re.M)
        if found:
            is_given = item.kind == "trait" and text.rstrip().endswith("}")
            yield joined(found[0]) + (" { .. }" if is_given else "")


def declared_as(item):
    """A declaration in one line, with its variants or public fields."""
    if item.kind == "enum":
        return f"{item.head} {joined(re.sub(r' = [0-9]+(?=,)', '', item.body))}"
    fields = re.findall(r"^    pub (\w+: .*?),$", item.body, re.M | re.S) if item.kind == "struct" else []
    return item.head + (f" {{ {', '.join(map(joined, fields))} }}" if fields else "")


def group(type_, its):
    """The lines of declarations that mean the same type, and of what it has, if its declaration is among them or has no path."""
    for it in its:
        yield declared_as(it)
        if it.kind == "trait":
            blocks = [other for other in items() if other.kind == "impl" and parts(other)[0] == it.name]
            yield from (f"    {member}" for member in members(it))
            yield from (block.head for block in blocks if parts(block)[1] not in PRIVATE)
    for it in implementations().get(type_, []) if type_ in its or type_ not in by_meaning()[type_] else []:
        trait, found = parts(it)[0], list(members(it))
        if trait in TRAITS or found and not trait:
            yield from (it.head, *(f"    {member}" for member in found if not trait))


def use_lines(path, names, ending=""):
    listed = ", ".join(sorted(names))
    return [f"use {path}::{f'{{{listed}}}' if len(names) > 1 else listed};{ending}"] if names else []


def lines_of(path, names, shown):
    """The lines of a module: its names by the crates that declare them, and the signatures of what wasn't shown before."""
    groups = {}
    for crate in libraries():
        yield from use_lines(f"fastmetrics::{path}", {name for name, it in names.items() if it.crate == crate}, f" // {crate}")
    for _, it in sorted(names.items()):
        groups.setdefault(meant(it), []).extend([it] if it not in shown else [])
    for type_, its in groups.items():
        yield from group(type_, its) if its else []


def lines_of_std(text):
    """The `use` lines of std's names that a text has."""
    words, found = set(re.findall(r"\b[A-Z]\w*|\bio\b", text)) - {name for names in public().values() for name in names}, {}
    for module, listed, single in OF_STD.findall(TEXT):
        found.setdefault(module, set()).update({it.strip() for it in (listed or single).split(",")} & words)
    return [line for module, names in sorted(found.items()) for line in use_lines(module, names)]


def listing():
    shown, lines = set(), []
    for path, names in public().items():
        lines += ["", *lines_of(path, names, shown)] if names else []
        shown |= set(names.values())
    lines = ["", *lines_of_std("\n".join(lines)), *lines]
    return HEAD + "".join(LONG.sub(r"\1\n            ", line) + "\n" for line in lines)


def calls():
    """Each public call, as `TYPE::CALL` or as the name of a function, with the names of its type, its file, and the ways in which
    it can be made: `.` by a value, `::` by a path, or by its name alone."""
    for type_, its in by_meaning().items():
        if type_.kind.endswith("fn"):
            yield type_.name, set(), type_.path, {"", "::"}
        names = {type_.name, GIVEN_BY.get(type_.name, type_.name), *(it.name for it in its)}
        for it in [type_] if type_.kind == "trait" else [it for it in implementations().get(type_, []) if not parts(it)[0]]:
            for found in HEAD_OF_CALL.finditer("\n".join(members(it))):
                yield f"{type_.name}::{found[1]}", names, it.path, {".", "::"} if found[2] else {"::"}


def misnamed(text, listed):
    """The public names and calls that the words of a page don't name, and what they name and isn't listed."""
    words = {word for _, ticked in TICKED.findall(text) for word in re.findall(r"[A-Za-z_]\w*", ticked)}
    names = {it.name: it.path for its in by_meaning().values() for it in its}
    names |= {call.split("::")[-1]: path for call, _, path, _ in calls()}
    for name, path in names.items():
        if name not in words and not TOGETHER.fullmatch(name):
            yield f"docs/CALLS.md doesn't name {name}: {path.relative_to(TOP)}"
    unknown = sorted(words - set(re.findall(r"\w+", listed)) - FOREIGN)
    yield from (f"docs/CALLS.md names {it}, and no public name or signature has it" for it in unknown)


def sources():
    """The files of libraries, programs and tests, each without the functions of programs that no program names a second time."""
    tests = [*TOP.glob("tests/scripts/src/**/*.rt.in"), *TOP.glob("tests/unit/src/**/*.rt.in")]
    crates = {path: path.relative_to(TOP).parts[1] for path in TOP.glob("crates/*/src/**/*.rt")}
    programs = [path for path, crate in crates.items() if crate not in libraries()]
    words = Counter(word for path in [*programs, *tests] for word in re.findall(r"\w+", source(path)))
    for path in [*crates, *tests]:
        items = re.split(r"^(?=(?:pub )?fn )", source(path), flags=re.M)
        names = [re.match(r"(?:pub )?fn (\w+)", it) for it in items]
        are_run = [path not in programs or not name or name[1] == "main" or words[name[1]] > 1 for name in names]
        yield path, "".join(it for it, is_run in zip(items, are_run) if is_run)


def uncalled():
    """The public calls that nothing makes."""
    files = []
    for path, text in sources():
        calls_in = CALLED.findall(re.sub(r"\bfn \w+", "", text))
        made = {(by_value.strip() or before or other, name or named) for by_value, before, name, other, named in calls_in}
        files.append((path.relative_to(TOP).parts[1] in libraries(), made, set(re.findall(r"\w+", text))))
    for call, names, path, ways in calls():
        is_inside, forms = any(fnmatchcase(call, it) for it in INSIDE), {(way, call.split("::")[-1]) for way in ways}
        makers = [words for is_library, made, words in files if forms & made and (is_inside or not is_library)]
        if call not in NEVER and not any(not names or names & words for words in makers):
            yield f"no test and no program calls {call}: {path.relative_to(TOP)}"
    gone = (it for it in INSIDE if not any(fnmatchcase(call, it) for call, _, _, _ in calls()))
    yield from (f"there is no public call {it}, which scripts/public.py lists" for it in gone)


def main():
    fresh, wrong = listing(), []
    if "--write" in sys.argv[1:]:
        LISTING.write_text(fresh)
    if LISTING.read_text() != fresh:
        kept = LISTING.read_text().split("\n")
        wrong += difflib.unified_diff(kept, fresh.split("\n"), "docs/public_api.txt", "sources", n=0, lineterm="")
        wrong.append("docs/public_api.txt differs from the sources (scripts/public.py --write mends it)")
    wrong += [*misnamed(PAGE.read_text(), fresh), *uncalled()]
    print("\n".join(wrong), end="\n" if wrong else "")
    return 1 if wrong else 0


if __name__ == "__main__":
    sys.exit(main())
