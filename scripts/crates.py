#!/usr/bin/env python3
"""For the scripts beside it: the crates of this repository, copies of them, and verdicts that are kept.

`rt ci` refuses sources of crates that crates.txt doesn't list, and proves those that it lists. So each file of a crate in bench/,
tests/ or examples/server/ has `.in` behind its name, which it loses in a copy, and crates.in beside it has the crate's line.

    scripts/crates.py FOLDER [PART..]      lays the crates of crates.txt in a folder, with those of bench and tests, or of these
                                           parts; what was built there before stays

A verdict is kept in ~/.cache/fastmetrics, or in the folder that FASTMETRICS_KEPT names; with FASTMETRICS_KEPT= nothing is kept,
and all is tried. It lies under the checksum of all that it rests on, so that what changed is tried again.
"""
import glob
import hashlib
import json
import os
import re
import shutil
import subprocess
import sys

TOP = os.path.dirname(os.path.dirname(os.path.realpath(__file__)))
KIT = os.path.dirname(subprocess.run(["rt", "doc"], stdout=subprocess.PIPE, text=True, check=True).stdout.strip())
KEPT = os.environ.get("FASTMETRICS_KEPT", os.path.expanduser("~/.cache/fastmetrics"))
# On how many processors it may run.
LANES = len(os.sched_getaffinity(0))
# A folder on the disk of the crates, where their libraries can be linked.
ON_DISK = f"{TOP}/.git" if os.path.isdir(f"{TOP}/.git") else None
PARTS = ("bench", "tests")
ROOTS = ("src/main.rt", "src/lib.rt")
# The folders of crates that have another name.
FOLDERS = {"replay": "scripts", "tests": "unit"}
# A line of crates.txt: a crate, and the libraries that it uses.
LINE = re.compile(r"^(\w+)\b[^:#\n]*:([^#\n]*)", re.M)


def text_of(path):
    with open(path, encoding="utf-8", errors="replace") as file:
        return file.read()


def write(path, text):
    os.makedirs(os.path.dirname(path), exist_ok=True)
    with open(path, "w", encoding="utf-8") as file:
        file.write(text)


class Crate:
    """A crate: its name, the libraries that its line names, its folder, and the one with its library once that is proved."""

    def __init__(self, name, libraries, folder):
        self.name, self.libraries, self.folder, self.rlib = name, libraries, folder, f"{folder}/out/rlib"

    def below(self, crates):
        """The crates of these that it is built on."""
        found, left = [], list(self.libraries)
        while left:
            name = left.pop(0)
            if name in crates and name not in found:
                found.append(name)
                left += crates[name].libraries
        return [crates[name] for name in found]

    def words(self, crates, links="", jobs=1):
        """The words of a check of it, on libraries that are built."""
        rlib = lambda name: f"{crates[name].rlib if name in crates else f'{KIT}/rlibs'}/{name}.rlib"
        root = next(it for it in ROOTS if os.path.isfile(f"{self.folder}/{it}"))
        words = [f"{KIT}/bin/rattle", "check", "--crate-name", self.name, root, "-L", f"dependency={KIT}/rlibs"]
        for name in ["std", *self.libraries]:
            words += ["--extern", f"{name}={rlib(name)}"]
        for crate in self.below(crates):
            words += ["-L", f"dependency={crate.rlib}"]
        words += ["--antt-project", f"{KIT}/rattle/logic/antt-project.json", "--logic-built", f"{KIT}/logic_built"]
        return [*words, "--links", f"{self.name}={links}", "--jobs", str(jobs)]


def crates_of(*parts, kind=Crate, top=TOP):
    """The crates of crates.txt, here or in a copy of the repository, and those of these parts, by their names."""
    places = [(f"{top}/crates.txt", lambda name: f"{top}/crates/{name}")]
    places += [(f"{top}/{it}/crates.in", lambda name, it=it: f"{top}/{it}/{FOLDERS.get(name, name)}") for it in parts]
    lines = [(line, folder) for path, folder in places for line in LINE.findall(text_of(path))]
    return {name: kind(name, libraries.split(), folder(name)) for (name, libraries), folder in lines}


def lay_out(folder, parts=PARTS):
    """Lays the crates of crates.txt and of these parts in a folder. What was built there stays, and nothing else."""
    for crate in crates_of(*parts).values():
        target = f"{folder}/crates/{crate.name}"
        for path in glob.glob(f"{target}/*"):
            if os.path.basename(path) != "out":
                shutil.rmtree(path) if os.path.isdir(path) else os.remove(path)
        copy = lambda path, to: shutil.copy(path, to.removesuffix(".in"))
        left = shutil.ignore_patterns("out", "must-fail")
        shutil.copytree(crate.folder, target, ignore=left, copy_function=copy, dirs_exist_ok=True)
    lines = [f"{TOP}/crates.txt", *(f"{TOP}/{part}/crates.in" for part in parts)]
    write(f"{folder}/crates.txt", "".join(map(text_of, lines)))
    handles = [it for it in (f"{TOP}/{part}/HANDLES" for part in ("", *parts)) if os.path.isfile(it)]
    shutil.copy(handles[-1], f"{folder}/HANDLES")
    os.makedirs(f"{folder}/.git", exist_ok=True)


def files_in(folders):
    """The files in these folders, in order."""
    for folder in folders:
        for at, below, names in os.walk(folder):
            below.sort()
            yield from (f"{at}/{name}" for name in sorted(names))


def name_of(path):
    """A name of the file that is the same in each checkout."""
    in_crates = re.search(r"/(?:crates|bench|tests)/(\w+/(?:src|specs|proofs)/.*)", path)
    return in_crates[1] if in_crates else os.path.basename(path)


def without_comments(data):
    """A source without its lines of comments."""
    return b"".join(line for line in data.splitlines(keepends=True) if not line.lstrip().startswith(b"//"))


def sum_of(files, sources, words=()):
    """The checksum of these files, of these sources without their comments, and of these words."""
    found = hashlib.sha256()
    for path, is_source in [(it, False) for it in files] + [(it, True) for it in sources]:
        with open(path, "rb") as file:
            data = without_comments(file.read()) if is_source else file.read()
        found.update(f"{name_of(path)}\n".encode())
        found.update(hashlib.sha256(data).digest())
    for it in words:
        found.update(json.dumps(it).encode())
    return found.hexdigest()


def given(key):
    """What was kept under this checksum, or nothing."""
    try:
        return json.loads(text_of(f"{KEPT}/{key}")) if KEPT else None
    except (OSError, ValueError):
        return None


def keep(key, verdict):
    """Keeps a verdict, if there is a folder for it."""
    if KEPT:
        write(f"{KEPT}/{key}.{os.getpid()}", json.dumps(verdict))
        os.replace(f"{KEPT}/{key}.{os.getpid()}", f"{KEPT}/{key}")


if __name__ == "__main__":
    lay_out(os.path.realpath(sys.argv[1]), sys.argv[2:] or PARTS)
