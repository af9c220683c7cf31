"""Plants bodies without a proof, each of which a test must refuse: `scripts/bodies.py tests` (README.md).

A body within functions becomes another branch of them, which runs where the crate `planted` of that copy says so (planted.c): so
one compilation serves them all.
"""
import glob
import os
import re
import struct
import tempfile
import time
from concurrent.futures import ThreadPoolExecutor
from pathlib import Path

import cases
import unproved
from cases import ONE_RUN
from check import listed
from crates import KIT, LANES, TOP, crates_of, files_in, given, keep, lay_out, sum_of, text_of, write

HERE = os.path.dirname(os.path.realpath(__file__))
# In which all tests run, whatever was compiled for them.
RUNS = ThreadPoolExecutor(LANES)

# The crate that says which body runs, for one copy of the crates.
PLANTED = """//! Which of the bodies that are planted runs.
#![tactic(auto)]

unsafe extern "C" {
    safe fn planted_body() -> u32;
}

/// Whether it is the body with this number.
pub fn is(number: u32) -> bool {
    planted_body() == number
}
"""

# What stands before a test whose memory is limited: how many times it asks for it, for how many bytes, together or at once, and
# how many requests are not given back at its end. The number is the first that is too much; with no body it is just not reached.
LIMIT = re.compile(r"(requests|bytes|greatest|kept)::(\d+)::(\S+)")
# What planted.c counts, in its order.
COUNTED = ("requests", "bytes", "greatest", "returned")


def tests_of(body):
    """The crate of tests, or the program, that a body names, and the tests that fail with it, each with what is limited of its
    memory, if anything is, and its number."""
    crate, *tests = body.tests.split()
    found = [LIMIT.fullmatch(it) or ("", "", 0, it.removeprefix("cases::")) for it in tests]
    return crate, {it[3]: (it[1], int(it[2])) if it[1] else None for it in found}


def branches(bodies, numbers):
    """The files of a crate in which these bodies stand as branches, by their paths, and the bodies for which there is one."""
    files, placed = {}, []
    for file in sorted({body.file for body in bodies}):
        text = text_of(f"{bodies[0].crate.folder}/{file}")
        lines, blocks = text.split("\n"), {}
        for body in (it for it in bodies if it.file == file):
            at = [(text[: text.index(old)].count("\n"), old, new) for old, new in body.pairs]
            found = [function.inner for function in body.functions()]
            # A text that goes on after the head of a function stands at the beginning of its block.
            heads = [new.startswith(old) and lines[line].endswith(old) for line, old, new in at]
            if all(block and block[0] - head <= line < block[1] for block, head, (line, _, _) in zip(found, heads, at)):
                placed.append(body)
                for block, pair in zip(found, at):
                    blocks.setdefault(block, {}).setdefault(numbers[body], []).append(pair)
        for (first, last), changes in sorted(blocks.items(), reverse=True):
            right, planted = lines[first:last], []
            for number, pairs in changes.items():
                wrong = list(right)
                for line, old, new in pairs:
                    if line < first:
                        wrong.insert(0, new.removeprefix(old))
                    else:
                        wrong[line - first] = wrong[line - first].replace(old, new)
                planted += [f"{'} else ' if planted else ''}if planted::is({number}) {{", *wrong]
            lines[first:last] = [*planted, "} else {", *right, "}"]
        files[file] = "\n".join(lines)
    return files, placed


def stand_beside(bodies, folder):
    """Plants those bodies that can be branches in a copy of the crates, and returns them by their numbers."""
    numbers, placed = {body: number for number, body in enumerate(bodies, 1)}, []
    for crate in sorted({body.crate.name for body in bodies}):
        files, found = branches([it for it in bodies if it.crate.name == crate], numbers)
        placed += found
        for file, text in files.items():
            write(f"{folder}/crates/{crate}/{file}", text)
    lines = re.sub(r"^(\w[^:#\n]*:)", r"\1 planted", text_of(f"{folder}/crates.txt"), flags=re.M)
    write(f"{folder}/crates.txt", f"planted:\n{lines}")
    write(f"{folder}/crates/planted/src/lib.rt", PLANTED)
    write(f"{folder}/crates/planted/c/planted.c", text_of(f"{HERE}/planted.c"))
    return {numbers[body]: body for body in placed}


def runs_of(name, program):
    """All that runs in a crate of tests, or a program, by its name."""
    if name == "tests":
        return unproved.tests_of(program)
    return unproved.scripts() if name == "replay" else {it.name: it for it in cases.cases_of(name)[0]}


def passes(program, case, room, number=0, limit=None, seconds=ONE_RUN):
    """Whether a test passes with the body of this number, or with none, and asks for no more memory than it may; with none it has
    to ask for just as much."""
    environment, asked = {"PLANTED": str(number)}, Path(room, f"asked-{number}-{limit}-{case.name}")
    word, most = limit or ("", 0)
    if limit:
        asked.write_bytes(bytes(struct.calcsize("4L")))
        environment |= {"ASKED": str(asked), **({"LIMIT": f"{COUNTED.index(word)} {most}"} if word in COUNTED else {})}
    is_right = case.is_right(*case.run(program, environment, seconds))
    if limit:
        counts = dict(zip(COUNTED, struct.unpack("4L", asked.read_bytes())))
        counts["kept"] = max(counts["requests"] - counts["returned"], 0)
        is_right = is_right and (counts[word] < most if number else counts[word] == most - 1)
        if not number and not is_right:
            print(f"{case.name}: {counts}, and not {most - 1} {word}", flush=True)
    return is_right


def failing(program, runs, room, body, number=0):
    """Those of a body's tests that fail with it. A step that two threads break shows only where they meet, so a test that passes
    runs thirty times, or until five minutes are over."""
    tests = [(it, limit) for it, limit in tests_of(body)[1].items() if it in runs]
    begun, seconds = time.monotonic(), int(body.seconds or ONE_RUN)
    for turn in range(30):
        found = [it for it, limit in tests if not passes(program, runs[it], room, number, limit, seconds)]
        if found or turn > 1 and time.monotonic() > begun + 300:
            return found
    return []


def tried_beside(bodies):
    """Each of these bodies, which one crate of tests or one program has to refuse, with those of its tests that fail, and what is
    said where none does; and all that runs there, each with whether it passes with no body."""
    name = tests_of(bodies[0])[0]
    with tempfile.TemporaryDirectory(prefix="tested-bodies-") as room:
        lay_out(room)
        placed = stand_beside(bodies, room)
        program = unproved.compiled(room, name, name == "tests")
        runs = runs_of(name, program)
        limits = {(it, limit) for body in bodies for it, limit in tests_of(body)[1].items() if limit and it in runs}
        with_none = [*((it, None) for it in runs), *sorted(limits)]
        right = list(RUNS.map(lambda it: passes(program, runs[it[0]], room, 0, it[1]), with_none))
        ran = {test: all(is_right for is_right, it in zip(right, with_none) if it[0] == test) for test in runs}
        failed = RUNS.map(lambda it: failing(program, runs, room, placed[it], it), placed)
        answers = [(body, [it for it in tests if ran[it]], "its tests pass") for body, tests in zip(placed.values(), failed)]
    outside = [it for it in bodies if it not in placed.values()]
    return answers + [it for batch in batches(outside) for it in tried_outside(batch)], ran


def batches(bodies):
    """The bodies in lists of those that are planted together: no two have a test or a line in common."""
    found = []
    for body in bodies:
        its = {*tests_of(body)[1], *((body.crate.name, body.file, old) for old, _ in body.pairs)}
        if all(taken & its for taken, _ in found):
            found.append((set(), []))
        taken, batch = next(it for it in found if not it[0] & its)
        taken |= its
        batch.append(body)
    return [batch for _, batch in found]


def tried_outside(bodies):
    """Each of these bodies, which stand outside of functions, with those of its tests that fail, and what is said where none
    does."""
    name = tests_of(bodies[0])[0]
    with tempfile.TemporaryDirectory(prefix="tested-bodies-") as room:
        lay_out(room)
        for body in bodies:
            body.stand_in(f"{room}/crates/{body.crate.name}")
        if name == "tests":
            unproved.leave_files(room, {it.partition("::")[0] for body in bodies for it in tests_of(body)[1]})
        try:
            program = unproved.compiled(room, name, name == "tests")
        except SystemExit as fault:
            return [it for body in bodies for it in tried_outside([body])] if len(bodies) > 1 else [(bodies[0], [], str(fault))]
        runs = runs_of(name, program)
        return [(body, failing(program, runs, room, body), "its tests pass") for body in bodies]


def tried_or_kept(bodies, crates):
    """The same of all bodies that one crate of tests or one program has to refuse, or what was refused before on this machine
    (README.md), where all passed with no body."""
    crate = crates[tests_of(bodies[0])[0]]
    files = [*glob.glob(f"{HERE}/*.[pc]*"), *(f"{TOP}/scripts/{name}.py" for name in ("cases", "crates", "unproved"))]
    files += filter(os.path.isfile, glob.glob(f"{crate.folder}/*"))
    files += unproved.script_files() if crate.name == "replay" else []
    sources = files_in(f"{it.folder}/src" for it in [crate, *crate.below(crates)])
    key = sum_of([f"{KIT}/KIT-ID", *sorted(files)], sources, [it.told() for it in bodies])
    found = given(key)
    if not found:
        answers, ran = tried_beside(bodies)
        by_body = {body: (failed, said) for body, failed, said in answers}
        found = [by_body[it] for it in bodies], ran
        if all(failed for failed, _ in found[0]) and all(ran.values()):
            keep(key, found)
    return [(body, *it) for body, it in zip(bodies, found[0])], found[1]


def tried_all(names):
    """Tries the bodies of these crates, or of all, and returns the status."""
    crates = crates_of("tests")
    by_tests, counts, bad = {}, {True: 0, False: 0}, 0
    for body in (it for name, crate in crates.items() if not names or name in names for it in listed(crate, "tested_bodies")):
        by_tests.setdefault(tests_of(body)[0], []).append(body)
    jobs = sorted(by_tests.items(), key=lambda it: -len(it[1]))
    with ThreadPoolExecutor(LANES) as pool:
        for (tests, _), (answers, ran) in zip(jobs, pool.map(lambda it: tried_or_kept(it[1], crates), jobs)):
            for body, failed, said in answers:
                counts[bool(failed)] += 1
                last = " / ".join(said.strip().split("\n")[-3:])[:400]
                how = f"refused by {tests} {' '.join(failed[:3])}" if failed else f"NOT REFUSED: {last}"
                print(f"tested body of {body.crate.name}, {body.title}: {how}", flush=True)
            wrong = sorted(it for it, is_right in ran.items() if not is_right)
            print("".join(f"FAILED with no body: {it} of {tests} (scripts/test.sh)\n" for it in wrong), end="")
            bad += len(wrong)
            good, other = {"tests": ("passed", "failed"), "replay": ("agree", "differ")}.get(tests, ("", ""))
            print(f"{len(ran) - len(wrong)} {good}, {len(wrong)} {other}\n" if good else "", end="", flush=True)
    print(f"{counts[True]} refused, {counts[False]} not refused")
    return 1 if counts[False] or bad else 0
