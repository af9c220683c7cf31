#!/usr/bin/env python3
"""Compares README.md, CONTRIBUTING.md and docs/*.md with the files that they quote and name, and doc comments with those that
they quote.

    scripts/pages.py [--write]

- The fenced block after a line `<!-- cut: FILE -->` is that file, whole; after a line `<!-- cut: FILE | FIRST | LAST -->` it is
  the part from the line that begins with FIRST to the next one that ends with LAST, without the indentation of its first line.
  Without a LAST that is a `}` which stands no deeper than that first line. Each block of Rattle is such a one. --write puts the
  files' text there.
- Each link has its file, and each `docs/NAME.md`, also outside of backticks. In backticks each path is there, which has a `/` and
  an ending, or begins with a folder of the repository or with a crate's name; it may begin at the top, in crates/ or in some
  crate, and a file of definitions may be without its ending. So is each crate, `fm_..`, and each call, a word before a
  parenthesis, which some crate has to declare. Left out are words with a placeholder (`NAME`), and what is made (`out/`).
- No line has more than 130 columns.
- In the doc comments of all crates each block of Rust stands after a line `<!-- cut: FILE -->`, and its lines are lines of that
  file, in the same order, however far they are indented. A blank line, or a line `// ..`, stands for lines that were left out;
  without one the lines stand next to each other in the file too. --write doesn't change these: cut the example again.

Prints a line for each fault; the status is 0 if there is none.
"""
import difflib
import re
import sys

from sources import TICKED, TOP

FOLDERS = sorted(it.name for it in TOP.iterdir() if it.is_dir() and it.name != ".git")
CRATES = {it.name for part in ("crates", "bench", "tests") for it in (TOP / part).iterdir() if it.is_dir()}
FENCED = re.compile(r"^```.*?^```$", re.M | re.S)
QUOTED = re.compile(r"^(?:<!-- cut: ([^\n]*) -->\n)?```(\w*)\n(.*?)^```$", re.M | re.S)
LINK = re.compile(r"\[[^\]]*\]\(([^)\s]+)\)")
PAGE = re.compile(r"\bdocs/\w+\.md\b")
CALL = re.compile(r"\b(\w+)(?=\()")
DECLARED = re.compile(r"\b(?:const fn|fn|struct|enum|trait|const|type) (\w+)|^    (\w+)(?:\(|,| =| \{)", re.M)
# Calls of std, of the language and of the tool.
FOREIGN = {"Fn", "error", "fn", "join_promised", "spawn_with", "tactic", "using", "_with_unit"}
PLACEHOLDER = re.compile(r"\b(NAME|CRATE|FOLDER|FILE|MODULE|PID|NN)\b|\*$|\.\.$")
WIDTH = 130


def part_of(cut):
    """The lines that a page cuts from a file, or what is wrong."""
    name, *ends = cut.split(" | ")
    if not (TOP / name).is_file():
        raise ValueError(f"there is no {name}")
    lines = (TOP / name).read_text().splitlines()
    if not ends:
        return lines
    first, last = (*ends, "}")[:2]
    begin = next((i for i, line in enumerate(lines) if line.lstrip(" ").startswith(first)), None)
    if begin is None:
        raise ValueError(f"no line of {name} begins with {first}")
    indent = len(lines[begin]) - len(lines[begin].lstrip(" "))
    is_last = lambda it: it.endswith(last) and (last != "}" or len(it) - len(it.lstrip(" ")) <= indent)
    end = next((i for i in range(begin, len(lines)) if is_last(lines[i])), None)
    if end is None:
        raise ValueError(f"no line of {name} behind {first} ends with {last}")
    return [line[indent:] for line in lines[begin : end + 1]]


def cut_again(text):
    """A page with its blocks as they should be."""

    def renewed(found):
        cut, language, text = found.groups()
        if cut:
            return "\n".join([f"<!-- cut: {cut} -->", f"```{language}", *part_of(cut), "```"])
        if language == "rust":
            raise ValueError(f"a block is cut from no file: {text[:40]!r}")
        return found[0]

    return QUOTED.sub(renewed, text)


def declared():
    """What the crates' sources declare, with the variants of enums."""
    texts = (path.read_text() for path in TOP.glob("crates/*/src/**/*.rt"))
    return FOREIGN | {first or second for text in texts for first, second in DECLARED.findall(text)}


def is_path(word):
    first, slash, rest = word.partition("/")
    return bool(slash and rest) and (first in FOLDERS or first in CRATES or bool(re.search(r"/[^/]*\.[a-z]+$", word)))


def is_there(path):
    """Whether a file or a folder stands at a path from the top, from crates/ or from some crate."""
    path = path.rstrip("/")
    places = [path, f"crates/{path}", f"crates/*/{path}"]
    return any(any(TOP.glob(place + ending)) for place in places for ending in ("", ".antt", ".rt"))


def missing_in(page, text, calls):
    """What a page names and isn't there."""
    for name in PAGE.findall(text):
        if not (TOP / name).is_file():
            yield name
    prose = FENCED.sub("", text)
    for target in LINK.findall(prose):
        if not re.match(r"https?:|#", target) and not (page.parent / target.partition("#")[0]).is_file():
            yield target
    for _, ticked in TICKED.findall(prose):
        yield from (f"{call}()" for call in CALL.findall(ticked) if call not in calls)
        for word in (it.strip("(),;:'\"").rstrip(".") for it in ticked.split()):
            if PLACEHOLDER.search(word) or word.startswith(("/", "out/", "..", "http")):
                continue
            if is_path(word) and not is_there(word):
                yield word
            crate = re.match(r"(fm_\w+?)(\*?)(::.*)?$", word)
            if crate and not any((TOP / "crates").glob(crate[1] + crate[2])):
                yield word


def faults_of(page, calls):
    """What is wrong with a page. With --write its blocks are renewed."""
    text, name = page.read_text(), page.relative_to(TOP)
    try:
        fresh = cut_again(text)
        if "--write" in sys.argv[1:]:
            page.write_text(fresh)
        elif fresh != text:
            yield from difflib.unified_diff(text.split("\n"), fresh.split("\n"), str(name), "files", n=0, lineterm="")
            yield f"{name}: a snippet differs from its file (scripts/pages.py --write mends it)"
    except ValueError as fault:
        yield f"{name}: {fault}"
    yield from (f"{name}: there is no {it}" for it in dict.fromkeys(missing_in(page, text, calls)))
    yield from (f"{name}, line {i}: more than {WIDTH} columns" for i, line in enumerate(text.split("\n"), 1) if len(line) > WIDTH)


def is_example(example, file):
    """Whether the lines of an example stand in a file."""
    pieces = [it.strip("\n") for it in re.split(r"\n\n|^// \.\.$", example, flags=re.M) if it.strip("\n")]
    rest = "\n" + re.sub(r"^ +| +$", "", file, flags=re.M) + "\n"
    for piece in pieces:
        rest = "\n" + rest.partition(f"\n{piece}\n")[2] if f"\n{piece}\n" in rest else ""
    return bool(pieces and rest)


def faults_of_examples(source):
    """What is wrong with the examples in the doc comments of a source."""
    comments = (re.match(r" *//[/!] ?(.*)$", line) for line in source.read_text().split("\n"))
    text = "\n".join(comment[1].strip() if comment else "" for comment in comments)
    for found in QUOTED.finditer(text):
        name, language, example = found.groups()
        here = f"{source.relative_to(TOP)}, line {text.count(chr(10), 0, found.start()) + 1}"
        is_file = bool(name) and (TOP / name).is_file()
        if not language:
            yield f"{here}: a block says in which language it is"
        elif language == "rust" and not is_file:
            yield f"{here}: the example is cut from no file"
        elif language == "rust" and not is_example(example, (TOP / name).read_text()):
            yield f"{here}: {name} has not these lines, or not next to each other"


def main():
    calls = declared()
    pages = [TOP / "README.md", TOP / "CONTRIBUTING.md", *sorted((TOP / "docs").glob("*.md"))]
    wrong = [fault for page in pages for fault in faults_of(page, calls)]
    wrong += [fault for source in sorted(TOP.glob("crates/*/src/**/*.rt")) for fault in faults_of_examples(source)]
    print("\n".join(wrong), end="\n" if wrong else "", file=sys.stderr)
    return 1 if wrong else 0


if __name__ == "__main__":
    sys.exit(main())
