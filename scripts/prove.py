#!/usr/bin/env python3
"""Proves crates over the libraries that `rt ci` kept, which are not proved again, and keeps what it proved of each function: a
function that didn't change, and calls none that did, isn't proved again. `rt ci` proves a changed crate as a whole, and alone
counts for the gate.

    scripts/prove.py [--build] [--crates FOLDER] CRATE..      crates of this repository, or of FOLDER/crates, in the order of what
                                                              they are built on

Libraries that aren't in their out/rlib are taken from a run of `rt ci`, which proves what of them it didn't keep. That the source
of one changed since isn't seen: remove its out/rlib, or run `rt ci`. What is kept of a crate lies in its out/proved. A library is
written to its out/rlib, and with --build a program to out/NAME. Prints how far a check is, what isn't proved and what to write,
and for each crate how many functions it has and how many seconds it took. The status is 0 if each is proved.
"""
import argparse
import glob
import os
import re
import shutil
import subprocess
import sys
import tempfile
import time
from contextlib import suppress

from crates import KIT, LANES, ON_DISK, TOP, crates_of, files_in

# What a check says of all that it reads and that is well.
QUIET = re.compile(
    r"(?:statements|library|logic|axioms|crate|linked|logic=|by-macro:|hides|note: only the first) ?"
    r"|(?:fn|impl|struct|enum|trait) \S+: (?:proved|no holes)"
)
LINK = [f"{KIT}/bin/rattle-link", "--target", "x86_64-unknown-linux-gnu", "--toolchain", f"{KIT}/toolchain"]
LINKED = [f"{KIT}/c/libos_c.a", f"{KIT}/c/liblibc_c.a"]


def library_of(crate):
    """Where a library lies once it is proved."""
    return f"{crate.rlib}/{crate.name}.rlib"


def missing_below(crate, crates):
    """The libraries below a crate that aren't there."""
    return [it for it in crate.below(crates) if not os.path.isfile(f"{library_of(it)}/format")]


def link(library, target):
    """Links a library into its place, if there is more of it than there. It may still be written, or be removed already."""
    part = f"{target}.part"
    sizes = lambda folder: sorted((os.path.relpath(it, folder), os.path.getsize(it)) for it in files_in([folder]))
    with suppress(OSError, shutil.Error):
        here, there = sizes(library), sizes(target)
        if here != there and len(here) >= len(there):
            shutil.copytree(library, part, copy_function=os.link)
            if sizes(library) == here:
                shutil.rmtree(target, ignore_errors=True)
                os.rename(part, target)
    shutil.rmtree(part, ignore_errors=True)


def take(libraries):
    """Has `rt ci` prove libraries, or take what it kept of them, and links them as they come: it works on a copy, and removes
    that at its end."""
    words = ["rt", "ci", *(it.name for it in libraries)]
    print(*words, flush=True)
    with tempfile.TemporaryDirectory(prefix="libraries-", dir=ON_DISK) as room:
        how = {"stdin": subprocess.DEVNULL, "stdout": subprocess.DEVNULL, "stderr": subprocess.STDOUT}
        with subprocess.Popen(words, cwd=TOP, env={**os.environ, "TMPDIR": room}, **how) as run:
            while run.poll() is None:
                for it in libraries:
                    for made in glob.glob(f"{room}/*/repo/crates/{it.name}/out/rlib/{it.name}.rlib/format"):
                        link(os.path.dirname(made), library_of(it))
                time.sleep(0.1)


def proved(crate, crates, builds):
    """Whether a crate is proved, and built if it is a library or `builds` says so."""
    if missing_below(crate, crates):
        take(missing_below(crate, crates))
    if missing := [it.name for it in missing_below(crate, crates)]:
        print(f"not proved: {' '.join(missing)}; `rt ci {missing[0]}` says why", file=sys.stderr)
        return False
    begun, program = time.monotonic(), f"{crate.folder}/out/{crate.name}"
    is_program = os.path.isfile(f"{crate.folder}/src/main.rt")
    words = [*crate.words(crates, jobs=LANES), "--incremental", f"{crate.folder}/out/proved"]
    if builds or not is_program:
        words[1] = "build"
        words += ["-o", f"{program}.o", "--toolchain", f"{KIT}/toolchain"] if is_program else ["-o", library_of(crate)]
    os.makedirs(crate.rlib, exist_ok=True)
    how = {"stdin": subprocess.DEVNULL, "stdout": subprocess.PIPE, "stderr": subprocess.STDOUT, "text": True, "errors": "replace"}
    with subprocess.Popen(words, cwd=crate.folder, **how) as check:
        functions = 0
        for line in check.stdout:
            functions += line.startswith("fn ")
            if not QUIET.match(line):
                print(line, end="", flush=True)
    is_proved = check.returncode == 0
    if is_proved and builds and is_program:
        is_proved = subprocess.run([*LINK, "-o", program, f"{program}.o", *LINKED]).returncode == 0
    verdict, seconds = "proved" if is_proved else "NOT PROVED", time.monotonic() - begun
    print(f"{crate.name}: {verdict}, {functions} functions, {seconds:.0f} seconds", flush=True)
    return is_proved


def main():
    words = argparse.ArgumentParser(usage=__doc__)
    words.add_argument("--build", action="store_true")
    words.add_argument("--crates", default=TOP)
    words.add_argument("names", nargs="+")
    given = words.parse_args()
    crates, others = crates_of(), crates_of(top=os.path.realpath(given.crates))
    crates |= {name: others[name] for name in given.names if name in others}
    unknown = [it for it in given.names if it not in crates]
    if unknown:
        sys.exit(f"crates.txt has no {' '.join(unknown)}")
    return 0 if all(proved(crates[name], crates, given.build) for name in given.names) else 1


if __name__ == "__main__":
    sys.exit(main())
