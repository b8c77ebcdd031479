"""Calls of programs and their times, and grammar files: what the scripts here share."""

import os
import subprocess

ENDINGS = {".y", ".yy", ".ypp"}


def called(words, printed, **more):
    """The status of a call and its seconds of processor time; what it prints goes to that file, and its faults unless another
    place is named for them."""
    with open(printed, "wb") as output:
        streams = {"stdin": subprocess.DEVNULL, "stdout": output, "stderr": subprocess.STDOUT}
        child = subprocess.Popen(words, **(streams | more))
        _, status, usage = os.wait4(child.pid, 0)
    child.returncode = os.waitstatus_to_exitcode(status)
    return child.returncode, usage.ru_utime + usage.ru_stime


def ratio(one, other):
    """How many times the other number the one is, as it is told."""
    return "?" if one is None or not other else f"{one / other:.2f}"


def grammar_files(names):
    """The grammar files that are named or in the folders."""
    for name in names:
        if name.is_dir():
            yield from sorted(path for path in name.rglob("*") if path.suffix in ENDINGS and path.is_file())
        else:
            yield name


def counterexamples(source, most, folder):
    """What Bison says of a grammar file in that folder, in so many seconds at the most: for how many of its reports it has an
    ambiguous sentence, how many reports there are, its seconds, whether it was ended, and its first lines where it fails before
    its first report: behind reports its status also tells that `%expect` is not met."""
    words = ["timeout", str(most), "bison", "-Wnone", "-Wcounterexamples", "-o", "made.c", source]
    status, seconds = called(words, folder / "told", cwd=folder, env={**os.environ, "LC_ALL": "C"})
    lines = (folder / "told").read_text(errors="replace").splitlines()
    shown = sum(line.startswith("  Example: ") for line in lines)
    reports = sum("/reduce conflict on token" in line for line in lines)
    return shown, reports, seconds, status == 124, [] if reports or status in (0, 124) else lines[:5]
