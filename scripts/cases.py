#!/usr/bin/env python3
"""Runs each program that has a file cases.toml on its cases, and then refuses each of their requests for memory in turn.

    scripts/cases.py [CRATE..]        the programs of all crates that have such a file, or of these

A case has a name, the program's words (`args`) and its input (`stdin`), and what it then writes: `stdout`, `stderr` and `status`,
which are empty and 0 where they are left out. `encoding` is that of its texts, in place of UTF-8; `to` is a file that standard
output goes to. The run that `rt ci` makes, whose words, input and output are the files `args`, `stdin`, `stdout` and `status`
beside cases.toml, is a case too, named `beside`. Then, in each case with status 0, each request for memory is refused, one a run,
by scripts/memory.c, which is loaded before the C library: each time the program ends with status 1, writes nothing to standard
output, and one line to standard error, which is one of the lines that `no_memory` at the file's head matches.

It runs the programs as they were proved and built (`rt ci` and `rt run` leave crates/NAME/out/NAME); PROGRAMS=FOLDER takes
FOLDER/NAME instead. Prints a line for each program and for each failure, and last 'N cases passed, M failed'; the status is 0 if
M is 0.
"""
import os
import re
import subprocess
import sys
import tempfile
import tomllib
from concurrent.futures import ThreadPoolExecutor
from pathlib import Path

from crates import LANES, TOP

# How long one run may take beside other work, in seconds.
ONE_RUN = 600


def whole(told):
    """A text, or the one that a list of pieces describes."""
    pieces = [told] if isinstance(told, str) else told
    repeated = lambda text, times: "".join(text.replace("%", str(number)) for number in range(times))
    return "".join(it if isinstance(it, str) else repeated(*it) for it in pieces)


class Case:
    """A run of a program, and what it has to write. What it writes to standard error counts unless `stderr` is None."""

    def __init__(self, name, args=(), stdin="", stdout="", stderr="", status=0, to=None, encoding="utf-8"):
        self.name, self.to, self.args = name, to, [it.encode(encoding) for it in args]
        self.stdin, self.stdout = whole(stdin).encode(encoding), whole(stdout).encode(encoding)
        self.stderr, self.status = None if stderr is None else whole(stderr).encode(encoding), status

    def run(self, program, environment=None, seconds=ONE_RUN):
        """The status of one run of a program, which a list of words begins, and what it writes to standard output and to standard
        error."""
        out = open(self.to, "wb") if self.to else subprocess.PIPE
        how = {"input": self.stdin, "stdout": out, "stderr": subprocess.PIPE, "timeout": seconds, "env": environment or {}}
        try:
            ended = subprocess.run([*program, *self.args], **how)
        except subprocess.TimeoutExpired:
            return None, b"", f"no end in {seconds} seconds\n".encode()
        return ended.returncode, ended.stdout or b"", ended.stderr

    def is_right(self, status, stdout, stderr):
        """Whether a run ended and wrote what it has to."""
        return (status, stdout) == (self.status, self.stdout) and self.stderr in (None, stderr)


def cases_of(crate):
    """A crate's cases, and what a want of memory writes to standard error, if it ends the program."""
    folder = Path(TOP, "crates", crate)
    told = tomllib.loads((folder / "cases.toml").read_text("utf-8"))
    no_memory = re.compile(told.pop("no_memory").encode())
    beside = {it: (folder / it).read_bytes().decode() for it in ("args", "stdin", "stdout", "status") if (folder / it).is_file()}
    beside = {**beside, "args": beside.get("args", "").splitlines(), "status": int(beside.get("status", "0"))}
    return [Case(name, **it) for name, it in {"beside": beside, **told}.items()], no_memory


def refused(program, case, no_memory, counter, request):
    """What is wrong where this request for memory is refused, or nothing."""
    status, out, errors = case.run(program, {"LD_PRELOAD": counter, "REFUSE": str(request)})
    if status == 1 and not out and errors.count(b"\n") == 1 and no_memory.fullmatch(errors[:-1]):
        return ""
    return f"FAILED: {case.name}, request {request}: status {status}, {len(out)} bytes, {errors!r}"


def tried(crate, counter, pool):
    """Tries a crate's cases, and returns how many there are and how many fail."""
    cases, no_memory = cases_of(crate)
    program = [f"{os.environ.get('PROGRAMS') or f'{TOP}/crates/{crate}/out'}/{crate}"]
    wrong, requests = set(), 0
    for case in cases:
        answer, said = case.run(program), []
        if not case.is_right(*answer):
            said = [f"FAILED: {crate}, {case.name}: {answer}"]
        elif case.status == 0:
            case.run(program, {"LD_PRELOAD": counter, "REFUSE_COUNT": f"{counter}.count"})
            count = int(Path(f"{counter}.count").read_text().split()[0])
            one = lambda request: refused(program, case, no_memory, counter, request)
            said = [it for it in pool.map(one, range(1, count + 1)) if it]
            said += [] if count else [f"FAILED: {crate}, {case.name} asks for no memory"]
            requests += count
        if said:
            print("\n".join(said), flush=True)
            wrong.add(case.name)
    refusals = f"{requests} requests for memory refused in turn"
    print(f"{crate}: {len(cases)} cases, and {refusals}{', FAILED' if wrong else ''}", flush=True)
    return len(cases), len(wrong)


def main():
    with tempfile.TemporaryDirectory(prefix="cases-") as scratch, ThreadPoolExecutor(LANES) as pool:
        counter = f"{scratch}/counter.so"
        compiler = [os.environ.get("CC", "cc"), "-shared", "-fPIC", "-O1"]
        subprocess.run([*compiler, "-o", counter, f"{TOP}/scripts/memory.c"], check=True)
        crates = sys.argv[1:] or sorted(it.parent.name for it in Path(TOP).glob("crates/*/cases.toml"))
        counts = [tried(it, counter, pool) for it in crates]
    passed, failed = sum(all_ - wrong for all_, wrong in counts), sum(wrong for _, wrong in counts)
    print(f"{passed} cases passed, {failed} failed")
    return 1 if failed else 0


if __name__ == "__main__":
    sys.exit(main())
