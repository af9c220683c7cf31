#!/usr/bin/env python3
"""Tries the bodies that have to be refused: scripts/bodies/README.md describes them.

    scripts/bodies.py check [--follow LOG | --right | --full] [CRATE..]    those that the check must refuse
    scripts/bodies.py tests [CRATE..]                                      those that a test must refuse; all tests run too
    scripts/bodies.py places [CRATE..]                                     whether each still has its place; tries none
    scripts/bodies.py plant TITLE FOLDER                                   puts one of the server's in a copy of it

Of all crates, or of these. Prints a line for each body, and last 'N refused, M not refused'; the status is 0 if M is 0. Of
`places` only what is wrong is printed.
"""
import argparse
import os
import sys

sys.path.insert(1, f"{os.path.dirname(os.path.realpath(__file__))}/bodies")
sys.dont_write_bytecode = True

import check
import tests
from crates import crates_of, text_of


def without_place(crate):
    """The bodies of a crate whose old text doesn't stand in its file once."""
    for body in (it for name in ("wrong_bodies", "tested_bodies", "served_bodies") for it in check.listed(crate, name)):
        paths = (f"{crate.folder}/{body.file}{ending}" for ending in ("", ".in"))
        text = "".join(text_of(it) for it in paths if os.path.isfile(it))
        yield from (f"{body.title} ({body.file}, {text.count(old)} times)" for old, _ in body.pairs if text.count(old) != 1)


def main():
    words = argparse.ArgumentParser(usage=__doc__)
    words.add_argument("what", choices=["check", "tests", "places", "plant"])
    words.add_argument("--follow")
    words.add_argument("--right", action="store_true")
    words.add_argument("--full", action="store_true")
    words.add_argument("names", nargs="*")
    given = words.parse_intermixed_args()
    if given.what == "check":
        return check.tried_all(given.names, given.follow, given.right, given.full)
    if given.what == "tests":
        return tests.tried_all(given.names)
    crates = crates_of("examples/server")
    if given.what == "plant":
        title, folder = given.names
        return next(it for it in check.listed(crates["web_server"], "served_bodies") if it.title == title).stand_in(folder)
    chosen = [crate for name, crate in crates.items() if name in given.names or not given.names]
    wrong = [f"its old text has to stand once: {crate.name}, {it}" for crate in chosen for it in without_place(crate)]
    print("\n".join(wrong), end="\n" * bool(wrong))
    return 1 if wrong else 0


if __name__ == "__main__":
    sys.exit(main())
