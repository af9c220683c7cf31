#!/usr/bin/env python3
"""Prints what the clauses of `text::encode` reach: each file of definitions with its lines, and their sum; then what those of the
calls that register reach besides; and what the metrics of the library declare, which these clauses take from them: the ghost
members of each impl of an `Encode` trait and of a histogram's sign, and the definitions that only these reach.

    scripts/definitions.py [--names]

Lines are counted without comments, imports and blank lines, and only those of definitions that are reached. It fails where one of
the three has more than it may (MOST), where one of the first two reaches a definition of an `inside` folder, or where no public
clause (sources.py) of a library reaches a definition that stands outside of one: it belongs into specs/inside/.
"""
import re
import sys

from sources import TOP, clauses_of, home, libraries, module, named_in, public_clauses, reach

# The most lines of each: what `encode` promises, what a registration does, and what metrics declare.
MOST = {"encode": 740, "registering": 340, "declared": 600}

# The sources of the calls that register, with the names of those that do where others stand beside them.
REGISTERING = {
    **{
        f"crates/fm_core/src/registry/tree/{it}.rt": r"\w+"
        for it in ("register", "registry_call", "subsystems", "subsystem_builder")
    },
    "crates/fastmetrics/src/registry/root.rt": "(new|built)",
    "crates/fastmetrics/src/registry/root/subsystems.rt": "(leave|namespace|enter)",
    "crates/fastmetrics/src/registry/root/registering.rt": "register",
    **{f"crates/fastmetrics/src/registry/root/{it}.rt": r"\w+" for it in ("metrics", "families", "own", "collectors")},
    "crates/fastmetrics/src/registry/root/constants.rt": "(keep|info)",
    "crates/fastmetrics/src/registry/paths.rt": r"\w+",
}


def block_of(path, head):
    """A source, and the block of it with this head."""
    text = (TOP / "crates" / path).read_text()
    return text, text[text.index(head) : text.index("\n}\n", text.index(head))]


def encoding():
    """What the clauses of `encode` name, what they see of a registry, and what a metric declares."""
    text = (TOP / "crates/fm_core/src/scrape/encode.rt").read_text()
    _, model = block_of("fm_core/src/registry/tree.rt", "Model for Registry<M> {")
    metric, trait = block_of("fm_encoder/src/metric.rt", "pub trait EncodeMetric")
    ghosts = named_in(re.findall(".*ghost.*", trait), metric)
    return named_in(clauses_of(text, "encode"), text) | named_in(re.findall(".*ghost Value.*", model)[:1], model) | ghosts


def registering():
    """What the clauses of the calls that register name."""
    texts = {(TOP / source).read_text(): function for source, function in REGISTERING.items()}
    return set().union(*(named_in(clauses_of(text, function), text) for text, function in texts.items()))


# A root that can be shown declares nothing more than its metrics. A `;` stands in the head of an impl for arrays.
HEAD = r"(?:[^{;]|;(?= \w+\]))"
IMPL = re.compile(rf"^impl(?!{HEAD}*\bShown for ){HEAD}*?\b(Encode\w+|Sign)\b{HEAD}*? for {HEAD}*\{{$", re.M)
GHOST = re.compile(r"^    ghost (?!use )[\s\S]*?;$", re.M)


def declared():
    """The lines of ghost members of impls of `Encode` traits, by file, and the definitions that they name."""
    lines, names = {}, set()
    for path in sorted(it for paths in libraries().values() for it in paths):
        text = path.read_text()
        for found in IMPL.finditer(text):
            block = text[found.end() : text.index("\n}\n", found.end())]
            for ghost in GHOST.findall(block):
                here = [it for it in ghost.split("\n") if it.strip() and not it.strip().startswith("//")]
                lines[path] = lines.get(path, 0) + len(here)
                names |= named_in(here, text[: found.start()].split("\nimpl")[0] + block)
    return lines, names


def size_of(found):
    return sum(len(module(name).definitions[word]) for name, word in found)


def print_reached(found):
    """Prints the files of definitions with their lines, and returns those of an `inside` folder."""
    by_file = {}
    for name, word in found:
        by_file.setdefault(name, []).append(word)
    inside = []
    for name in sorted(by_file, key=lambda it: (-size_of([(it, word) for word in by_file[it]]), it)):
        here = module(name)
        print(f"{size_of([(name, word) for word in by_file[name]]):5} {here.path.relative_to(TOP)}")
        if "--names" in sys.argv:
            print("      " + " ".join(word for word in here.definitions if word in by_file[name]))
        if "/inside/" in str(here.path):
            inside.append(str(here.path.relative_to(TOP)))
    return inside


def print_declared(lines, more):
    for path in sorted(lines, key=lambda it: -lines[it]):
        print(f"{lines[path]:5} {path.relative_to(TOP)}")
    print(f"{size_of(more):5} of {len(more)} definitions more in {len({name for name, _ in more})} files")
    if "--names" in sys.argv:
        print("      " + " ".join(sorted(f"{name}.{word}" for name, word in more)))


def misplaced():
    """The definitions of libraries that no public clause reaches, and that stand in no folder `inside`."""
    sources = [it.read_text() for it in TOP.glob("crates/*/src/**/*.rt")]
    public = reach({home(it) for text in sources for it in named_in(public_clauses(text), text)})
    for path in sorted(it for it in TOP.glob("crates/*/specs/**/*.antt") if "/inside/" not in str(it)):
        name = str(path.relative_to(TOP / "crates"))[: -len(".antt")].replace("/", ".")
        is_library = (TOP / "crates" / name.partition(".")[0] / "src/lib.rt").exists()
        for word in module(name).definitions if is_library else ():
            if word != "mutual" and word.isidentifier() and (name, word) not in public:
                yield f"belongs into specs/inside: {name} {word}"


def main():
    lines, names = declared()
    headline, calls, more = reach(encoding()), reach(registering()), reach(names)
    calls, more = calls - headline, more - headline - calls
    sizes = {"encode": size_of(headline), "registering": size_of(calls), "declared": sum(lines.values()) + size_of(more)}
    print("what `encode` promises:")
    inside = print_reached(headline)
    print("what the calls that register promise besides:")
    inside += print_reached(calls)
    print("what the metrics of the library declare:")
    print_declared(lines, more)
    print(", ".join(f"{name} {size}" for name, size in sizes.items()), "lines")
    wrong = [f"reached, and yet inside: {it}" for it in inside]
    wrong += [f"{name}: more than {MOST[name]} lines" for name, size in sizes.items() if size > MOST[name]]
    wrong += misplaced()
    print("\n".join(wrong), end="\n" * bool(wrong), file=sys.stderr)
    return 1 if wrong else 0


if __name__ == "__main__":
    sys.exit(main())
