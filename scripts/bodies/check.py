"""Tries the wrong bodies of the crates, which the check must refuse: `scripts/bodies.py check` (README.md).

Here are also the functions of a file, and copies of a crate in which all functions but some call one that never returns.
"""
import glob
import os
import re
import shutil
import subprocess
import sys
import tempfile
import threading
import time
from concurrent.futures import ThreadPoolExecutor, as_completed

import crates as repository
from crates import KIT, LANES, ON_DISK, ROOTS, TOP, files_in, given, keep, sum_of, text_of, write

FUNCTION = re.compile(r" *(?:pub(?:\([^)]*\))? )?(?:const )?fn (\w+)")
IMPL = re.compile(r"impl\b(?:<.*?>)? (?:(\w+) for )?(\w+)(?:<.*>)? \{$")
NAMING = re.compile(r"has no `|has no field|is not in scope|was not admitted")
BLOCK = re.compile(r"(?:pub(?:\(crate\))? )?(?:impl|trait)\b")
NEVER = """unsafe extern "C" {
    pub(crate) safe fn never()
        ensures { ⊥ };
}
"""


def messages(said):
    """What a check says, a line for each message: its further lines begin with blanks."""
    return re.sub(r"\n +", " ", said).split("\n")


def head_at(lines, at):
    """The head of a block that begins in a line, on one line."""
    end = next(i for i in range(at, len(lines)) if lines[i].endswith("{"))
    return re.sub(r"<\s|,?\s(?=>)", lambda it: it[0].strip(" ,"), " ".join(it.strip() for it in lines[at : end + 1]))


def inner_of(lines, fn):
    """The lines between the braces of a function whose head begins in this line, or nothing where it is constant, or has no body,
    or one in a line."""
    indent = re.match(" *", lines[fn])[0]
    is_head = lambda at: at == fn or lines[at].startswith((indent + ")", indent + ">"))
    for at in range(fn, len(lines)):
        if lines[at] == indent + "{" or lines[at].endswith(" {") and is_head(at):
            return None if re.match(r"[^(]*\bconst fn ", lines[fn]) else (at + 1, lines.index(indent + "}", at))
        head = "\n".join(lines[fn : at + 1])
        if not lines[at] or head.endswith(";") and head.count("{") == head.count("}") or at == fn and head.endswith("}"):
            return None


def without_bodies(lines, kept):
    """The lines of a file in which each function calls one that never returns, but constant ones and these. Each stays in its
    lines."""
    found = list(lines)
    for fn in (i for i in range(len(found)) if FUNCTION.match(found[i])):
        first, end = inner_of(lines, fn) or (0, 0)
        if first < end and not any(it.first <= fn <= it.last for it in kept):
            calls = f"{re.match(' *', lines[fn])[0]}    crate::never::never(); unreachable!()"
            found[first:end] = [calls, *[""] * (end - first - 1)]
    return found


def leave_out(folder, kept):
    """Leaves out of a copy of a crate all functions but these, and their proofs."""
    for path in glob.glob(f"{folder}/src/**/*.rt", recursive=True):
        lines = without_bodies(text_of(path).split("\n"), [it for it in kept if it.file == os.path.relpath(path, folder)])
        write(path, "\n".join(lines) + ("mod never;\n" if os.path.relpath(path, folder) in ROOTS else ""))
    write(f"{folder}/src/never.rt", NEVER)
    for path, _, files in os.walk(f"{folder}/proofs", topdown=False):
        is_kept = any(it.may_have(path) for it in kept)
        if not is_kept and "+" not in path and {"Answers.antt", "Invariants.antt", "Proof.antt"} & set(files):
            shutil.rmtree(path)


def leave_goals(folder, functions):
    """Has a check of a copy of a crate try no goals of these functions but those that their proofs answer."""
    for function in {it.first: it for it in functions}.values():
        path = f"{folder}/{function.file}"
        lines = text_of(path).split("\n")
        at = next(i for i in range(function.first, function.last + 1) if FUNCTION.match(lines[i]))
        lines[function.first : at] = ["" if it.lstrip().startswith("#[tactic(") else it for it in lines[function.first : at]]
        lines[at] = re.sub(r"^ *", r"\g<0>#[tactic(none)] ", lines[at])
        write(path, "\n".join(lines))


class Function:
    """The function around a line of a file, with its attributes."""

    def __init__(self, file, lines, at):
        fn = next((i for i in range(at, -1, -1) if FUNCTION.match(lines[i])), None)
        indent = "" if fn is None else re.match(" *", lines[fn])[0]
        last = next((i for i in range(fn or 0, len(lines)) if lines[i] in (indent + "}", indent + "{}")), -1)
        # Outside functions, as in a constant, there is the line alone.
        is_within = fn is not None and fn <= at <= last
        self.file, self.first, self.last = file, fn if is_within else at, last if is_within else at
        self.name = FUNCTION.match(lines[fn])[1] if is_within else ""
        while self.first > 0 and re.match(r" *(#\[|//)", lines[self.first - 1]):
            self.first -= 1
        # The lines between its braces, in which another branch may stand.
        self.inner = inner_of(lines, fn) if is_within else None
        module = self.module = [it for it in file.removesuffix(".rt").split("/")[1:] if it not in ("lib", "main")]
        above = next((i for i in range(fn, -1, -1) if BLOCK.match(lines[i])), None) if is_within and indent else None
        block = "" if above is None else head_at(lines, above)
        head = IMPL.match(re.sub(r"<dyn (\w+)>", r"Dyn\1", block))
        # The type and the trait of a method, as a check joins them; nothing where they have parameters.
        self.owner = head[2][:1].upper() + head[2][1:] + (head[1] or "") if head else ""
        self.block = "\n".join([block, *(it for it in lines[above:fn] if it.startswith("    ghost use "))]) if head else ""
        self.text = "\n".join(lines[self.first : self.last + 1])
        # Whether a copy may stand beside it, unless it calls itself: it is no method of a trait.
        self.may_be_copied = is_within and (not indent or head is not None and not head[1])
        # What --only takes: the end of the function's path, or the module.
        path = [self.owner, self.name] if head else [*module, self.name] if is_within and not indent else module
        self.path = "::".join(path)

    def may_have(self, proof):
        """Whether a folder may have its proof: below that of its type, or of its module."""
        above = {self.owner} if self.owner else {*self.module[-1:], "proofs"} if self.may_be_copied else set()
        return os.path.basename(proof) == self.name and (not above or os.path.basename(os.path.dirname(proof)) in above)

    def may_be(self, other):
        """Whether a check may name the other function as it names this one; what stands outside functions it names by its
        line."""
        if not self.name or not other.name:
            return (self.file, self.first) == (other.file, other.first)
        return self.name == other.name and (self.owner == other.owner or not self.owner or not other.owner)

    def refusals(self, said):
        """What a check says that it can't prove or refuses of this function: goals first, and last that its proof names what
        isn't there, which says little."""
        proof = rf"(?:\./)?proofs/(?:\S+/)?{f'{self.owner}/' if self.owner else ''}\+?{self.name}/\w+\.antt:\d+:\d+: error"
        found = []
        for message in messages(said):
            here = re.match(rf"note: (?:\./)?{self.file}:(\d+):\d+: it is not proved ", message)
            if here and self.first <= int(here[1]) - 1 <= self.last:
                found.append((0, message))
            elif self.name and re.match(proof, message):
                found.append((2 if NAMING.search(message) else 1, message))
        return found


# What a check tries by itself of a goal that has no answer, in its order, and the same with half of the counts.
TACTICS = {"search": "search rules", "grind": "grind (arith, common_steps)"}
HALF = {"search": "search rules fits 500", "grind": "grind (arith, common_steps) steps 2000000"}


class Body:
    """A mistake in functions of a file: pairs of an old and a new text, one line each."""

    def __init__(self, crate, title):
        self.crate, self.title, self.tests, self.seconds, self.file, self.pairs = crate, title, "", "", "", []
        # The goal that is tried alone: the word of its line, the folder of its proof and its name; or nothing.
        self.goal = []
        # The number of the copy that it stands in, or 0 in place of what is right.
        self.copy = 0

    def told(self):
        """All that its crate's list says of it."""
        return [self.crate.name, self.title, self.tests, self.file, self.pairs, self.goal]

    def functions(self):
        """The functions that it changes."""
        text, found = text_of(f"{self.crate.folder}/{self.file}"), []
        for old, _ in self.pairs:
            if text.count(old) != 1:
                sys.exit(f"{self.crate.name}, {self.title}: an old text stands in {self.file} {text.count(old)} times")
            found.append(Function(self.file, text.split("\n"), text[: text.index(old)].count("\n")))
        return found

    def changed(self, text):
        """A text with what is wrong in place of what is right."""
        for old, new in self.pairs:
            text = text.replace(old, new)
        return text

    def stand_in(self, folder):
        """Replaces what is right in a copy of the crate."""
        write(f"{folder}/{self.file}", self.changed(text_of(f"{folder}/{self.file}")))

    def stand_beside(self, folder):
        """Adds to a copy of the crate a copy of its function that is wrong, with its proof, and returns it."""
        function = self.functions()[0]
        name = f"{function.name}_{self.copy}"
        text = re.sub(rf"\bfn {function.name}\b", f"fn {name}", self.changed(function.text), count=1)
        text = f"{function.block}\n{text}\n}}" if function.block else text
        write(f"{folder}/{self.file}", f"{text_of(f'{folder}/{self.file}')}\n{text}\n")
        # A method's proof stands in the module of its type, which may be above that of the function.
        path = [*function.module, *[function.owner] * (function.owner != ""), function.name]
        while function.owner and len(path) > 2 and not os.path.isdir(f"{folder}/proofs/{'/'.join(path)}"):
            path.pop(-3)
        proof = f"{folder}/proofs/{'/'.join(path)}"
        for file in sorted(os.listdir(proof)) if os.path.isdir(proof) else []:
            own = rf"(\bproofs\.{re.escape('.'.join(path))})\."
            write(f"{os.path.dirname(proof)}/{name}/{file}", re.sub(own, rf"\1_{self.copy}.", text_of(f"{proof}/{file}")))
        lines = text_of(f"{folder}/{self.file}").split("\n")
        return Function(self.file, lines, next(i for i, line in enumerate(lines) if f"fn {name}" in line))

    def proof(self):
        """The folder of the proof of its goal, below proofs/."""
        return f"{self.goal[1]}{f'_{self.copy}' if self.copy else ''}"

    def ask(self, room):
        """Leaves, in a copy of the crate in which it stands, one goal to try, where it has a line that names one."""
        word, _, goal = self.goal
        path = f"{room}/proofs/{self.proof()}/Answers.antt"
        if word == "answer":
            is_other = lambda it: re.search(r"^pub (\S+) : goal\.\1$", it, re.M) and f"pub {goal} : goal." not in it
            parts = [it for it in text_of(path).rstrip("\n").split("\n\n") if not is_other(it)]
        else:
            goals = f"Rattle.{self.crate.name}.proofs.{self.proof().replace('/', '.')}.Goals as goal"
            uses = ["Rattle.std.proofs.Common.{rules, arith}", "Rattle.std.proofs.lemmas.Grind.{common_steps}", goals]
            parts = ["\n".join(f"use {it}" for it in uses)]
            parts += [f"pub {name} : goal.{goal}\n{name} c = {tactic}" for name, tactic in self.tries()]
        write(path, "\n\n".join(parts) + "\n")

    def tries(self):
        """What tries its goal, with a name of the goal for each."""
        word, _, goal = self.goal
        return [(goal, HALF["search"]), (f"{goal}-too", HALF["grind"])] if word == "own" else [(goal, TACTICS.get(word))]

    def is_proved(self, functions, said):
        """Whether a check proved its goal, or, where it has no line that names one, its functions."""
        if self.goal:
            is_over = re.search(r"^(?:only=|logic=).*\Z", said.rstrip("\n"), re.M)
            # What is tried by nothing is told as a goal of the function: so is this one where its folder is another function's,
            # or none's.
            is_left = any(f"(`{self.goal[2]}`)" in it for function in functions for _, it in function.refusals(said))
            fault = rf"^(?:\./)?proofs/{re.escape(self.proof())}/Answers\.antt:\d+:\d+: error"
            return is_over and not is_left and not re.search(fault, said, re.M)
        paths = [f"{it.owner}::{it.name}" if it.owner else it.name for it in functions if it.name]
        return all(set(re.findall(rf"^fn \S*\b{it}: (.*?)(?:, may wait)?$", said, re.M)) == {"proved"} for it in paths)

    def refusals(self, functions, said):
        """What a check says of its goal, or, where it has no line that names one, of its functions."""
        if not self.goal:
            return sorted(it for function in functions for it in function.refusals(said))
        found = []
        for name, tactic in self.tries():
            here = rf"(?:\./)?proofs/{re.escape(self.proof())}/Answers\.antt:\d+:\d+: error: `{re.escape(name)}`: "
            is_shown = lambda it: re.match(here + "`(?:search|grind)`[: ]", it) if tactic else not NAMING.search(it)
            found += [(1 if is_shown(it) else 2, it) for it in messages(said) if re.match(here, it)][:1]
        return [max(found)] if len(found) == len(self.tries()) else []


def listed(crate, name):
    """The bodies that a crate lists in a file of must-fail/."""
    found, path = [], f"{crate.folder}/must-fail/{name}.md"
    for line in text_of(path).split("\n") if os.path.isfile(path) else []:
        word, _, text = line.partition(" ")
        if word == "##":
            found.append(Body(crate, text))
        elif word in ("tests:", "seconds:", "file:"):
            setattr(found[-1], word[:-1], text)
        elif word.rstrip(":") in (*TACTICS, "answer", "own"):
            found[-1].goal = [word.rstrip(":"), *text.split()]
        elif word == "old:":
            found[-1].pairs.append([text, ""])
        elif word == "new:":
            found[-1].pairs[-1][1] = text
    return found


class Crate(repository.Crate):
    """A crate, and its wrong bodies."""

    def calls_itself(self, function):
        """Whether a function calls itself: its proof, which has to say what decreases, then stands in a folder of its own
        kind."""
        return any(f"+{function.name}" in folders for _, folders, _ in os.walk(f"{self.folder}/proofs"))

    def batches(self):
        """Its wrong bodies, in lists of those that are tried together. None has two of one function, but in copies of it."""
        found = []
        for wrong in listed(self, "wrong_bodies"):
            functions = wrong.functions()
            fits = lambda it: not any(one.may_be(other) for one in functions for other in it[0])
            is_alone = len({it.path for it in functions}) == 1 and functions[0].may_be_copied
            if found and not fits(found[0]) and is_alone and not self.calls_itself(functions[0]):
                wrong.copy = len(found[0][1]) + 1
                found[0][1].append(wrong)
                continue
            if not any(map(fits, found)):
                found.append(([], []))
            taken, batch = next(filter(fits, found))
            taken += functions
            batch.append(wrong)
        return [batch for _, batch in found]

    def checked_with(self, wrongs, crates, is_full=False):
        """What a check of the functions of these wrong bodies says of a copy in which they stand, and the functions of each."""
        with tempfile.TemporaryDirectory(prefix="wrong-bodies-") as room:
            for part in ("src", "specs", "proofs"):
                if os.path.isdir(f"{self.folder}/{part}"):
                    shutil.copytree(f"{self.folder}/{part}", f"{room}/{part}")
            for wrong in wrongs:
                if not wrong.copy:
                    wrong.stand_in(room)
            functions = [[wrong.stand_beside(room)] if wrong.copy else wrong.functions() for wrong in wrongs]
            leave_out(room, [it for found in functions for it in found])
            for wrong, found in zip(wrongs, functions):
                if wrong.goal:
                    wrong.ask(room)
                    leave_goals(room, found)
            paths = {it.path for found in functions for it in found}
            only = [word for path in sorted(paths) for word in ("--only", path)] if "" not in paths else []
            words = [*self.words(crates, "never"), *["--margin"] * (not is_full), *only]
            how = {"stdin": subprocess.DEVNULL, "stdout": subprocess.PIPE, "stderr": subprocess.STDOUT, "errors": "replace"}
            return subprocess.run(words, cwd=room, **how).stdout, functions

    def unproved(self, crates):
        """How many goals and functions its wrong bodies name, and the bodies of which it isn't proved where what is right stands
        in the place of each."""
        tried, bad, parts = 0, [], []
        for batch in self.batches():
            for wrong in batch:
                # What is right has no goal that only a wrong body has.
                wrong.goal = wrong.goal if wrong.goal[:1] != ["own"] else []
                wrong.pairs = [[old, old] for old, _ in wrong.pairs]
            # A function is proved only where those that it calls are: so those of which one goal is tried stand apart.
            parts += [[it for it in batch if bool(it.goal) == has_goal] for has_goal in (True, False)]
        for batch in filter(None, parts):
            said, functions = self.checked_with(batch, crates)
            tried += len(batch)
            bad += [wrong for wrong, found in zip(batch, functions) if not wrong.is_proved(found, said)]
        return tried, bad

    def tried(self, crates, is_full):
        """Each of its wrong bodies, with the least that is said of it: the kind of what refuses it and its text, or None. What
        was refused is kept by what it rests on; the format of a built library has a sum of all its files."""
        built = [f"{it.rlib}/{it.name}.rlib/format" for it in self.below(crates)]
        scripts = [f"{TOP}/scripts/bodies/check.py", f"{TOP}/scripts/crates.py"]
        files = [f"{KIT}/KIT-ID", *scripts, *built, *files_in([f"{self.folder}/specs", f"{self.folder}/proofs"])]
        answers = []
        for batch in self.batches():
            key = sum_of(files, files_in([f"{self.folder}/src"]), [it.told() for it in batch])
            found = not is_full and given(key)
            if not found:
                for wrong in batch if is_full else []:
                    wrong.goal = []
                said, functions = self.checked_with(batch, crates, is_full)
                named = [wrong.refusals(of, said) if is_refusal(said) else [] for wrong, of in zip(batch, functions)]
                found = [it[0] if it else None for it in named]
            if all(it and it[0] < 2 for it in found):
                keep(key, found)
            answers += zip(batch, found)
        return answers


def is_refusal(said):
    """Whether a check came to its verdict, and this is that something is not proved."""
    last = said.rstrip("\n").split("\n")[-1]
    only = re.match(r"only=(\d+) proved=(\d+)$", last)
    return last.startswith("logic=not-proved") or only is not None and only[1] != only[2]


def as_proved(crates, log, room):
    """These crates, each once the `rt ci` with this output has proved it, with its library linked in a folder, where it stays."""
    said, left = "", dict(crates)
    while not re.search(r"^\d+ passed, \d+ failed", said, re.M):
        time.sleep(1)
        said = text_of(log)
        for name in re.findall(r"^rt: (\w+) (?:proved$|is kept:)", said, re.M):
            if crate := left.pop(name, None):
                if os.path.isdir(crate.rlib):
                    crate.rlib = shutil.copytree(crate.rlib, f"{room}/{name}", copy_function=os.link)
                yield crate


def said_of_what_is_right(chosen, crates):
    """Prints the wrong bodies whose goals aren't proved with what is right in their place, and then 'N proved, M not proved'."""
    proved = failed = 0
    for crate in chosen:
        tried, bad = crate.unproved(crates)
        for it in bad:
            print(f"what is right in the place of {crate.name}, {it.title}: NOT PROVED", flush=True)
        proved, failed = proved + tried - len(bad), failed + len(bad)
    print(f"{proved} proved, {failed} not proved")
    return 1 if failed else 0


def tried_all(names, log, is_right, is_full):
    """Tries the wrong bodies of these crates, or of all, and returns the status."""
    crates = repository.crates_of(kind=Crate)
    bodies = {it: listed(it, "wrong_bodies") for name, it in crates.items() if not names or name in names}
    # Those with the most bodies first, so that no long check is the last.
    chosen = sorted(filter(bodies.get, bodies), key=lambda it: -len(bodies[it]))
    if is_right:
        return said_of_what_is_right(chosen, crates)
    refused, free = 0, threading.Semaphore(1 if log else LANES)

    def tried(crate):
        with free:
            return crate.tried(crates, is_full)

    # While the proofs go on, one crate is tried at a time.
    with tempfile.TemporaryDirectory(prefix="rlibs-", dir=ON_DISK) as room, ThreadPoolExecutor(LANES) as pool:
        jobs = {pool.submit(tried, it): it for it in (as_proved(crates, log, room) if log else chosen) if it in chosen}
        for _ in range(LANES):
            free.release()
        for job in as_completed(jobs):
            if job.exception():
                print(f"{jobs[job].name}: its wrong bodies weren't tried: {job.exception()}", flush=True)
            for wrong, found in [] if job.exception() else job.result():
                refused += found is not None and found[0] < 2
                verdict = "NOT REFUSED" if found is None else f"{('refused', 'refused', 'NOT SHOWN')[found[0]]}: {found[1][:150]}"
                print(f"wrong body of {wrong.crate.name}, {wrong.title}: {verdict}", flush=True)
    for crate in (it for it in chosen if it not in jobs.values()):
        print(f"{crate.name} isn't proved: its wrong bodies weren't tried")
    missed = sum(len(bodies[it]) for it in chosen) - refused
    print(f"{refused} refused, {missed} not refused")
    return 1 if missed else 0
