"""What lrcheck may answer where a fault is made. The faults are those of rules.py.

The answer to a call is made of parts: the answers to its files, of which each has a status and its texts on both streams. In
place of a part stands what comes of the fault."""

import errno
import os
from collections import namedtuple

import rules
from rules import ERRORS, INPUT, OUTPUT, is_beginning

ELSEWHERE = 3

Part = namedtuple("Part", "status out err")

OUT_OF_MEMORY = Part(2, b"", b"lrcheck: out of memory\n")
CANNOT_WRITE = Part(2, b"", b"lrcheck: cannot write standard output\n")

# With what the lines of a drawn tree begin, but for its first one.
DRAWN = tuple(it.encode() for it in (" ", "\u2502", "\u251c", "\u2514"))

# Why a page is not written.
NO_PAGE = (
    f"{os.strerror(errno.EIO)} (os error {errno.EIO})",
    "failed to write whole buffer",
    "out of memory",
)


def without_page(case, whole):
    """The parts of answers that tell of the last one's page, which can't be written, why."""
    return [[*whole.parts, Part(2, b"", f"lrcheck: cannot write {it}: {why}\n".encode())] for it in case.pages for why in NO_PAGE]


def has_no_page(case, whole, found):
    """All is answered, and it is told why the page can't be written."""
    return any(found[:3] == joined(parts) for parts in without_page(case, whole))


def unread(name, out=b""):
    """The answer to a file that can't be read."""
    named = "standard input" if name == "-" else name
    return Part(2, out, f"lrcheck: cannot read {named}: {os.strerror(errno.EIO)} (os error {errno.EIO})\n".encode())


def joined(parts):
    """The answer that is made of these parts."""
    status = max((part.status for part in parts), default=0)
    return status, b"".join(part.out for part in parts), b"".join(part.err for part in parts)


def is_whole(case, found):
    """A call without a fault ends as the case says, its answer is made of its parts, and its pages are pages."""
    told = found.err.startswith(case.told) and bool(found.err) == bool(case.told)
    are_pages = all(it.startswith(b"<!DOCTYPE html>") and it.endswith(b"</html>\n") for it in found.pages.values())
    return found.status == case.status and told and found[:3] == joined(found.parts) and are_pages


def leaves_input(case, found):
    """Standard input is read only where a file is named so, or lines are answered."""
    return "-" in case.names or case.answers_lines and case.status != 2 or not (found.input_read or found.faults[INPUT])


def memory_used_up(case, whole, found):
    """The fault is told behind whole parts, and nothing comes behind it."""
    ends = any(found[:3] == joined([*whole.parts[:k], OUT_OF_MEMORY]) for k in range(len(whole.parts)))
    return ends or has_no_page(case, whole, found)


def are_unread(whole, found, unread_parts):
    """Whether the parts of these numbers are in place of those of the whole answer, and nothing is behind an output that
    fails. What stands in place of a part is told before its output."""
    parts = [unread_parts.get(k, part) for k, part in enumerate(whole.parts)]
    if not found.faults[OUTPUT]:
        return found[:3] == joined(parts)
    ends = [k for k in range(max(unread_parts), len(parts)) if parts[k].out][:1]
    told = {k: [part._replace(out=b"")] for k, part in unread_parts.items()}
    return found.faults[OUTPUT] == 1 and any(found[:3] == joined([*parts[:k], *told.get(k, []), CANNOT_WRITE]) for k in ends)


def are_told_unread(case, whole, found, files):
    """Each of the files that can't be read, as many in a row as there were faults, is told, and the others are answered."""
    count = found.faults[INPUT] + found.faults[ELSEWHERE]
    rows = [files[k : k + count] for k in range(len(files) + 1 - count)]
    return any(are_unread(whole, found, {k: unread(case.names[k], case.unread) for k in row}) for row in rows)


def opening(case, whole, found):
    """The file is told, and the others are answered."""
    return are_told_unread(case, whole, found, range(len(case.names))) or has_no_page(case, whole, found)


def reading_lines(case, whole, found):
    """Behind the answers to the lines that were whole by then it is told that there are no more. The last one, which nothing ends,
    may be whole once all is read: at the end of the input."""
    read = case.given[: found.input_read]
    counts = [read.count(b"\n"), *([len(whole.parts)] if read == case.given else [])]
    return any(found[:3] == joined([*whole.parts[:k], unread("-")]) for k in counts)


def reading(case, whole, found):
    """Each file that can't be read is told, and not tried again, and the others are answered."""
    opened = [k for k, name in enumerate(case.names) if name == "-" or name in case.files]
    return are_told_unread(case, whole, found, opened)


def are_told(texts, found):
    """Whether these texts stand on standard error one behind another, but for those in a row whose write failed: as many as
    failed writes, the first of them cut at its end, and the others not there."""
    cut, texts = found.faults[ERRORS], [text for text in texts if text]
    if not cut:
        return found.err == b"".join(texts)
    for k in range(len(texts) + 1 - cut):
        front, back = b"".join(texts[:k]), b"".join(texts[k + cut :])
        if len(found.err) >= len(front) + len(back) and found.err.startswith(front) and found.err.endswith(back):
            if is_beginning(found.err[len(front) : len(found.err) - len(back)], texts[k]):
                return True
    return False


def output_ends(whole, found, k):
    """Whether the output ends within part k, which is told."""
    front = b"".join(part.out for part in whole.parts[:k])
    begun = found.out.startswith(front) and is_beginning(found.out[len(front) :], whole.parts[k].out)
    return begun and are_told([*(part.err for part in whole.parts[:k]), CANNOT_WRITE.err], found)


def writing(case, whole, found):
    """On standard output a beginning of the answer stands, and the fault is told. On standard error beginnings of lines
    stand, and nothing else comes of the fault. Of a page that can't be written it is told why."""
    if found.faults[OUTPUT] > 1:
        return False
    if found.faults[OUTPUT]:
        return found.status == 2 and any(output_ends(whole, found, k) for k in range(len(whole.parts)))
    answers = without_page(case, whole) if found.faults[ELSEWHERE] else [whole.parts]
    return any(found[:2] == joined(it)[:2] and are_told([part.err for part in it], found) for it in answers)


def answers_in(out):
    """The answers to lines: a tree that is drawn has several lines."""
    answers = []
    for line in out.splitlines(keepends=True):
        if answers and line.startswith(DRAWN):
            answers[-1] += line
        else:
            answers.append(line)
    return answers


def in_lines(case, whole):
    """The whole answer, where lines are answered with the answers as its parts."""
    if not (case.answers_lines and whole.status != 2):
        return whole
    answers = answers_in(whole.out)
    statuses = [0] * (len(answers) - 1) + [whole.status]
    return whole._replace(parts=tuple(Part(*it, b"") for it in zip(statuses, answers)))


def by_parts(rule, of_lines=None):
    """The rule, where lines are answered by these: that of the answers to a file, or one of its own."""

    def ruled(case, whole, found):
        whole = in_lines(case, whole)
        if of_lines and case.answers_lines and found.faults[INPUT]:
            return of_lines(case, whole, found)
        if case.answers_lines and found.faults[ELSEWHERE] and rule in (opening, reading):
            return found[:3] == joined([unread(case.names[0])])
        return rule(case, whole, found)

    return ruled


FAULTS = rules.faults_by(by_parts(memory_used_up), by_parts(opening), by_parts(reading, reading_lines), by_parts(writing))
