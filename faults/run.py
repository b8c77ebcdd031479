#!/usr/bin/env python3
"""Has each request of lrt and lrcheck for memory refused in turn, and each open, read, write and close fail in turn, in all
cases or in those that the arguments name. README.md says how the answers are judged. The last line is 'N passed, M failed'.

    run.py [CASE..]
    run.py CASE FAULT NUMBER    makes this one fault, and prints what is answered"""

import collections
import concurrent.futures
import functools
import itertools
import mmap
import os
import shlex
import shutil
import signal
import struct
import subprocess
import sys
import tempfile
from pathlib import Path

sys.dont_write_bytecode = True
import cases
import check_cases
import check_rules
import rules
from rules import Answer

HERE = Path(__file__).resolve().parent
CASES = {**cases.CASES, **check_cases.CASES}
RULES = {"lrt": rules, "lrcheck": check_rules}


def path_of(program):
    return Path(os.environ.get(f"{program.upper()}_PROGRAM", HERE.parent / "out" / program)).resolve()


PROGRAMS = {program: path_of(program) for program in RULES}
SECONDS = 60
SHOWN = 3

# What lies where a page is written.
OLDER = b"an older page"

# The report of faults.c: counts of calls, counts of faults by descriptor, the bytes that were read of standard input, and the
# blocks of memory that are held.
CALLS = ("memory", "open", "read", "write", "close")
REPORT = struct.Struct(f"={len(CALLS)}Q4QQq")

# What the program may take from the C library: that which faults.c stands in for, and that which neither asks for memory nor
# reaches a device.
STOOD_IN_FOR = (
    "malloc calloc realloc memalign aligned_alloc posix_memalign free open read write __write close __libc_start_main"
)
HARMLESS = (
    "memcpy memmove memset memcmp bcmp strlen __errno_location __xpg_strerror_r __sysv_signal __x86_get_cpuid_feature_leaf "
    "clock_gettime environ getenv isatty "
    # (for the file of a page)
    "fchmod fdatasync flock fsync ftruncate realpath rename statx unlink"
)


class Unfit(Exception):
    """Why no fault can be tried."""


class Room:
    """A folder in which a case is called again and again."""

    def __init__(self, folder, library, case, more=None):
        self.folder, self.library, self.case, self.more = Path(folder), library, case, more or {}
        for name, text in case.files.items():
            self.file(name).write_bytes(text)
        self.file("given").write_bytes(case.given)
        self.file("report").write_bytes(bytes(REPORT.size))
        self.laid = {*case.files, "given", "report", "out", "err"}
        with open(self.file("report"), "r+b") as it:
            self.report = mmap.mmap(it.fileno(), REPORT.size)

    def file(self, name):
        return self.folder / name

    def pages(self):
        """What lies there beside the files of the case, by name."""
        return {it.name: it.read_bytes() for it in self.folder.iterdir() if it.name not in self.laid}

    def call(self, fault=None, number=0, words=None):
        """What is answered where the call of that number meets the fault, and how many calls there were of each name, with how
        many blocks are `held`. The arguments are those of the case, or others."""
        command = [PROGRAMS[self.case.program], *(self.case.words if words is None else words)]
        told = {"LD_PRELOAD": self.library, "FAULT_REPORT": self.file("report"), **self.more, **settings(fault, number)}
        self.report[:] = bytes(REPORT.size)
        for name in {*self.pages(), *self.case.pages}:
            self.file(name).unlink(missing_ok=True)
        for name in self.case.pages:
            self.file(name).write_bytes(OLDER)
        with open(self.file("given"), "rb") as given, open(self.file("out"), "wb") as out, open(self.file("err"), "wb") as err:
            streams = {"stdin": given, "stdout": out, "stderr": err}
            status = ended(subprocess.Popen(command, cwd=self.folder, env=told, **streams))
        *counts, held = REPORT.unpack(self.report)
        written = self.file("out").read_bytes(), self.file("err").read_bytes()
        answer = Answer(status, *written, tuple(counts[len(CALLS) : -1]), counts[-1], pages=self.pages())
        return answer, {**dict(zip(CALLS, counts)), "held": held}

    def whole(self):
        """What is answered without a fault, with its parts, and how many calls there were of each name."""
        found, calls = self.call()
        parts = [self.call(words=words)[0] for words in self.case.lone_words]
        return found._replace(parts=tuple(parts or [found])), calls


def settings(fault, number):
    """The environment in which faults.c makes the fault."""
    if fault is None:
        return {}
    told = {"FAULT_CALL": fault.call, "FAULT_KIND": fault.kind, "FAULT_NUMBER": str(number)}
    asked = {"FAULT_GOES_ON": fault.goes_on, "FAULT_THEN_OUTPUT": fault.then_output}
    return {**told, **{name: "1" for name, is_asked in asked.items() if is_asked}}


def ended(process):
    """The status of the process, less than 0 where a signal ended it, and None where it had to be ended."""

    def stop(*_):
        raise TimeoutError

    signal.signal(signal.SIGALRM, stop)
    signal.alarm(SECONDS)
    try:
        return process.wait()
    except TimeoutError:
        process.kill()
        process.wait()
        return None
    finally:
        signal.alarm(0)


def shown(answer):
    if answer.status is None:
        end = f"no end within {SECONDS} seconds"
    else:
        end = f"status {answer.status}" if answer.status >= 0 else f"ended by signal {-answer.status}"
    out, err = [it if len(it) < 400 else it[:400] + b"..." for it in (answer.out, answer.err)]
    return f"{end}, standard output {out!r}, standard error {err!r}"


def keeps_pages(case, whole, found):
    """New pages lie there where the whole answer comes, and else the older ones, and nothing else."""
    return found.pages == (whole.pages if found[:3] == whole[:3] else dict.fromkeys(case.pages, OLDER))


def is_right(case, fault, whole, found):
    """Whether the answer may come where the whole one does without a fault, or where no fault was met."""
    may_come = fault.rule(case, whole, found) if any(found.faults) else found == whole._replace(parts=())
    return may_come and RULES[case.program].leaves_input(case, found) and keeps_pages(case, whole, found)


def try_fault(room, whole, calls, name):
    """Makes the fault at each call in turn, until none is met. Answers how many were made, and what was wrong."""
    case, wrong = room.case, []
    fault = RULES[case.program].FAULTS[name]
    for number in itertools.count(1):
        found, _ = room.call(fault, number)
        if not is_right(case, fault, whole, found):
            again = shlex.join(["python3", "faults/run.py", case.name, name, str(number)])
            wrong.append(f"{shown(found)}; without a fault {shown(whole)}; to repeat it: {again}")
        if found.status is None:
            return number, wrong
        if not any(found.faults):
            break
    made = number - 1
    if not wrong and made != calls[fault.call]:
        wrong.append(f"{name} was made {made} times, though there are {calls[fault.call]} such calls")
    return made, wrong


def outcome(library, case):
    """Tries all faults of a case. Answers how many were made of each, the calls without a fault, and what was wrong."""
    tried, wrong = {}, []
    with tempfile.TemporaryDirectory() as folder:
        room = Room(folder, library, case)
        whole, calls = room.whole()
        if not RULES[case.program].is_whole(case, whole):
            return tried, calls, [f"without a fault {shown(whole)}, wanted: status {case.status}, and what is told with it"]
        if not RULES[case.program].leaves_input(case, whole):
            return tried, calls, [f"{whole.input_read} bytes of standard input are read, wanted: none"]
        for name in rules.FAULTS:
            tried[name], more = try_fault(room, whole, calls, name)
            wrong += more
    return tried, calls, wrong


def tell_wrong(case, wrong):
    for it in wrong[:SHOWN]:
        print(f"{case.name}: {it}", flush=True)
    if len(wrong) > SHOWN:
        print(f"{case.name}: and {len(wrong) - SHOWN} more", flush=True)


def try_all(library, cases):
    """Tries all faults of the cases, and answers an outcome for each."""
    outcomes, tried = [], collections.Counter()
    with concurrent.futures.ProcessPoolExecutor(os.cpu_count()) as workers:
        found = workers.map(functools.partial(outcome, library), cases)
        for case, (faults, calls, wrong) in zip(cases, found):
            if not calls["memory"]:
                wrong.append(f"no request of {PROGRAMS[case.program]} for memory was counted")
            tried.update(faults)
            tell_wrong(case, wrong)
            outcomes.append("failed" if wrong else "passed")
    print(f"{sum(tried.values())} faults tried: {', '.join(f'{name} {count}' for name, count in tried.items())}")
    return outcomes


def show_one(library, case, name, number):
    """Makes one fault, prints what is answered, and answers the outcome."""
    fault = RULES[case.program].FAULTS[name]
    with tempfile.TemporaryDirectory() as folder:
        room = Room(folder, library, case)
        whole, _ = room.whole()
        found, calls = room.call(fault, number)
    print(f"without a fault: {shown(whole)}")
    print(f"with the fault: {shown(found)}")
    print(f"calls: {calls}; faults on descriptors 0, 1, 2 and elsewhere: {found.faults}")
    return ["passed" if is_right(case, fault, whole, found) else "failed"]


def taken_from_c_library(program):
    listed = subprocess.run(["nm", "-D", "--undefined-only", program], stdout=subprocess.PIPE, text=True)
    words = [line.split() for line in listed.stdout.splitlines()]
    return {name.split("@")[0] for kind, name in words if kind == "U"}


def require_fit(program):
    """Sees that faults.c stands in for all that the program takes from the C library."""
    if not program.exists():
        raise Unfit(f"there is no {program}: ./test builds it")
    taken = taken_from_c_library(program)
    if "__libc_start_main" not in taken:
        raise Unfit(f"{program} takes nothing from a shared C library")
    unknown = taken - {*STOOD_IN_FOR.split(), *HARMLESS.split()}
    if unknown:
        raise Unfit(f"{program} takes from the C library what faults.c does not stand in for: {', '.join(sorted(unknown))}")


def built_library(folder, programs):
    """Compiles faults.c into the folder, if it fits the programs."""
    for tool in ("cc", "nm"):
        if not shutil.which(tool):
            raise Unfit(f"there is no {tool}: faults are tried with a C compiler and its nm")
    for program in programs:
        require_fit(program)
    library = f"{folder}/faults.so"
    if subprocess.run(["cc", "-O1", "-fno-builtin", "-fPIC", "-shared", "-o", library, HERE / "faults.c", "-ldl"]).returncode:
        raise Unfit("faults.c could not be compiled")
    return library


def library_for(folder, cases):
    return built_library(folder, {PROGRAMS[case.program] for case in cases})


def outcomes_of(words):
    unknown = [word for word in words if word not in CASES]
    with tempfile.TemporaryDirectory() as folder:
        if len(words) == 3 and words[0] in CASES and words[1] in rules.FAULTS:
            case = CASES[words[0]]
            return show_one(library_for(folder, [case]), case, words[1], int(words[2]))
        if unknown:
            raise Unfit(f"there is no case {unknown[0]}")
        asked = [CASES[word] for word in words or CASES]
        return try_all(library_for(folder, asked), asked)


def main(words, outcomes_of=outcomes_of):
    try:
        outcomes = outcomes_of(words)
    except Unfit as error:
        print(error)
        outcomes = ["failed"]
    print(f"{outcomes.count('passed')} passed, {outcomes.count('failed')} failed")
    return 1 if "failed" in outcomes else 0


if __name__ == "__main__":
    sys.exit(main(sys.argv[1:]))
