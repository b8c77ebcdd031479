#!/usr/bin/env python3
"""Calls lrt and lrcheck as their users do: a run for each file NAME.run here, or for those that the arguments name. README.md
says what such a file holds. The last line is 'N passed, M failed'.

    run.py NAME..               makes the runs, as many side by side as there are processors
    run.py --accept NAME..      and writes into their files what the programs say now, and shows what that changes
    run.py --files NAME         puts the files of the run into this folder, so that it can be called by hand
"""

import contextlib
import difflib
import os
import re
import shlex
import signal
import subprocess
import sys
import tempfile
from concurrent.futures import ThreadPoolExecutor
from dataclasses import dataclass
from pathlib import Path

sys.dont_write_bytecode = True
import definitions

RUNS = Path(__file__).resolve().parent
TOP = RUNS.parent
SECONDS = 60
SKIPPED = 77
TIMED_OUT = 124
HEAD = re.compile(rb"^-- (.+?)( \(no newline\))? --\n", re.MULTILINE)
# The parts that are no files: what a run reads, and what it wants.
READ = ("stdin", "defined")
WANTED = ("out", "err", "status")


@dataclass
class Told:
    """What a call came to."""

    status: int
    out: bytes
    err: bytes

    def differences(self, wanted):
        for name in ("status", "out", "err"):
            one, other = (it if isinstance(it, int) or len(it) < 400 else it[:400] + b"..." for it in (getattr(self, name), getattr(wanted, name)))
            if getattr(self, name) != getattr(wanted, name):
                yield f"{name}: {one!r}, wanted: {other!r}"

    def parts(self):
        """The parts of a run that wants this."""
        status = b"%d\n" % self.status if self.status else b""
        return {name: it for name, it in (("out", self.out), ("err", self.err), ("status", status)) if it}


@dataclass
class Run:
    name: str
    call: bytes
    parts: dict

    def part(self, name):
        return self.parts.get(name, b"")

    def files(self):
        return {name: it for name, it in self.parts.items() if name not in READ + WANTED}

    def stored(self):
        return Told(int(self.part("status") or b"0"), self.part("out"), self.part("err"))

    def lay_out(self, room):
        """Puts the files of the run into its room."""
        for name, content in self.files().items():
            write(room / name, content)

    def text(self):
        """What the run's file holds: all that is text."""
        names = [it for it in [*self.files(), *READ, *WANTED] if it in self.parts and is_text(self.parts[it])]
        return self.call + b"".join(part_text(it, self.parts[it]) for it in names)

    def write(self):
        path_of(self.name).write_bytes(self.text())
        for name, content in self.parts.items():
            if not is_text(content):
                write(RUNS / self.name / name, content)


def path_of(name):
    return RUNS / f"{name}.run"


def write(path, content):
    path.parent.mkdir(parents=True, exist_ok=True)
    path.write_bytes(content)


def is_text(content):
    """Whether it can stand in the file of a run."""
    try:
        return "\0" not in content.decode() and not HEAD.search(content)
    except UnicodeDecodeError:
        return False


def part_text(name, content):
    ends = content.endswith(b"\n") or not content
    return b"-- %s%s --\n%s" % (name.encode(), b"" if ends else b" (no newline)", content if ends else content + b"\n")


def read(name):
    """The run of that name: what its file holds, and the files of its folder."""
    call, *rest = HEAD.split(path_of(name).read_bytes())
    parts = {}
    for at in range(0, len(rest), 3):
        head, mark, content = rest[at : at + 3]
        parts[head.decode()] = content.removesuffix(b"\n") if mark else content
    folder = RUNS / name
    parts |= {str(it.relative_to(folder)): it.read_bytes() for it in folder.rglob("*") if it.is_file()}
    return Run(name, call, parts)


def called(run, room):
    """What the call of the run comes to in that room. What it leaves running is ended."""
    with tempfile.TemporaryFile() as out, tempfile.TemporaryFile() as err:
        words = ["sh", "-c", run.call, "sh"]
        process = subprocess.Popen(words, cwd=room, stdin=subprocess.PIPE, stdout=out, stderr=err, start_new_session=True)
        try:
            process.communicate(run.part("stdin"), SECONDS)
            status = process.returncode
        except subprocess.TimeoutExpired:
            status = TIMED_OUT
        with contextlib.suppress(ProcessLookupError):
            os.killpg(process.pid, signal.SIGKILL)
        process.wait()
        return Told(status if status >= 0 else 128 - status, *(it.seek(0) or it.read() for it in (out, err)))


def defined(run, room):
    """What definitions.py gives for the words of the run's part `defined`, and for its standard input."""
    words = shlex.split(os.path.expandvars(run.part("defined").decode()))
    return Told(*definitions.answer(words, (room / words[1]).read_bytes(), run.part("stdin")))


def wanted(run, room):
    """What the run wants: what is stored, or what is defined, with which that must agree."""
    if "defined" not in run.parts:
        return run.stored()
    found = defined(run, room)
    if any(it in run.parts for it in ("out", "err")) and run.stored() != found:
        raise ValueError("what is stored as wanted is not the defined answer")
    return found


def accept(run, told):
    """Writes what came as what the run wants, and says what that changes in its file."""
    old = path_of(run.name).read_bytes()
    run.parts = {name: it for name, it in run.parts.items() if name not in WANTED} | told.parts()
    run.write()
    lines = [it.decode().splitlines() for it in (old, run.text())]
    return [*difflib.unified_diff(*lines, "before", "now", lineterm="")]


def outcome(name, accepts):
    """Makes the run: 'passed', 'failed' or 'skipped', and what is to be said of it."""
    with tempfile.TemporaryDirectory() as room:
        said = []
        try:
            run = read(name)
            run.lay_out(Path(room))
            told = called(run, Path(room))
            if told.status == SKIPPED:
                return "skipped", ["skipped: " + told.out.decode(errors="replace").strip()]
            if accepts:
                said = accept(run, told)
            wrong = [*told.differences(wanted(run, Path(room)))]
        except (OSError, ValueError) as error:
            wrong = [str(error)]
    return "failed" if wrong else "passed", said + wrong


def find_programs(folder):
    """Has the calls find the programs by their names: those that are named in the environment, as by LRT_PROGRAM, or else
    those of out/."""
    for name in ("lrt", "lrcheck"):
        program = os.path.abspath(os.environ.get(f"{name.upper()}_PROGRAM") or TOP / "out" / name)
        os.environ[name.upper()] = program
        os.symlink(program, f"{folder}/{name}")
    os.environ.update(TOP=str(TOP), PATH=f"{folder}:{os.environ['PATH']}")


def main(words):
    option = words.pop(0) if words and words[0].startswith("--") else ""
    if option not in ("", "--accept", "--files"):
        sys.exit(__doc__)
    if option == "--files":
        for name in words:
            read(name).lay_out(Path())
        return 0
    return make(words or sorted(it.stem for it in RUNS.glob("*.run")), option == "--accept")


def make(names, accepts):
    """Makes the runs, side by side."""
    outcomes = []
    with tempfile.TemporaryDirectory() as folder, ThreadPoolExecutor(len(os.sched_getaffinity(0))) as pool:
        find_programs(folder)
        for name, (found, said) in zip(names, pool.map(lambda it: outcome(it, accepts), names)):
            outcomes.append(found)
            for it in said:
                print(f"{name}: {it}", flush=True)
    print(f"{outcomes.count('passed')} passed, {outcomes.count('failed')} failed")
    return 1 if "failed" in outcomes else 0


if __name__ == "__main__":
    sys.exit(main(sys.argv[1:]))
