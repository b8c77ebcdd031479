"""The faults that are tried, and what lrt may answer where one is made."""

from collections import namedtuple

from cases import ANSWERING, FILE

# What a call answered: its status and its streams. `faults` are the faults that were made on each descriptor (0, 1, 2 and
# others), and `input_read` the bytes that were read of standard input. `parts` are the answers of which a whole one is made, and
# `pages` what lies there behind the call and is none of the files of the case, by name.
Answer = namedtuple("Answer", "status out err faults input_read parts pages", defaults=((), {}))

INPUT, OUTPUT, ERRORS = range(3)

OUT_OF_MEMORY = b"out of memory"
CANNOT_WRITE = b"cannot write standard output"

# With what standard error begins, by the status.
TOLD = {0: b"", 1: b"lrt: ", 2: b"usage: lrt start|core|closed|conflicts FILE | lrt run FILE STEPS | lrt tree FILE STEPS\n"}


def cannot_read(name):
    return f"cannot read {name}".encode()


def answers_lines(case):
    return case.words[:1] in [[command] for command in ANSWERING]


def is_whole(case, found):
    """A call without a fault ends as the case says: beside another status than 0 with no answer, and one line told."""
    told = found.err.startswith(TOLD[case.status]) and found.err.count(b"\n") == (case.status > 0)
    return found.status == case.status and told and not (case.status and found.out)


def leaves_input(case, found):
    """Standard input is read only where the grammar text, or the lines, are there."""
    reads = case.status != 2 and (not case.words or answers_lines(case))
    return reads or not (found.input_read or found.faults[INPUT])


def tries_once(found):
    """No device that has failed is tried again."""
    return max(found.faults) <= 1


def is_same(case, whole, found):
    """Nothing comes of the fault."""
    return found[:3] == whole[:3]


def tells(found, fault):
    return found.status == 1 and found.err == b"lrt: " + fault + b"\n"


def is_beginning(text, whole):
    """Whether the text is the whole one, but for something at its end."""
    return whole.startswith(text) and len(text) < len(whole)


def first_lines(text, count):
    return b"".join(line + b"\n" for line in text.split(b"\n")[:count])


def memory_used_up(case, whole, found):
    """The fault is told: before a line is answered as far as lines are answered, and else before anything is."""
    lines = found.out.count(b"\n") if answers_lines(case) else 0
    return tells(found, OUT_OF_MEMORY) and found.out == first_lines(whole.out, lines)


def opening(case, whole, found):
    """The fault is told, and nothing is read instead."""
    return tells(found, cannot_read(FILE)) and found.out == b"" and not found.input_read


def reading(case, whole, found):
    """The fault is told, and the lines that were whole by then are answered."""
    if not tries_once(found):
        return False
    if not found.faults[INPUT]:
        return opening(case, whole, found)
    lines = case.given[: found.input_read].count(b"\n") if answers_lines(case) else 0
    return tells(found, cannot_read("standard input")) and found.out == first_lines(whole.out, lines)


def interrupted_reading(case, whole, found):
    """What reads a grammar text reads on. What reads lines takes it for a fault."""
    takes_up = not (answers_lines(case) and found.faults[INPUT])
    return (is_same if takes_up else reading)(case, whole, found)


def is_cut(whole, found, fault):
    """Whether on standard output a beginning of the answer stands, and the fault is told, which is a status and a line. Where
    a write of standard error failed, a beginning of the line stands there, and nothing else comes of it."""
    if found.faults[OUTPUT]:
        status, told = fault
        ends = found.status == status and is_beginning(found.out, whole.out)
    else:
        told = whole.err
        ends = found.status == whole.status and found.out == whole.out
    return ends and (is_beginning(found.err, told) if found.faults[ERRORS] else found.err == told)


def writing(case, whole, found):
    """The output is cut, and the fault is told."""
    return tries_once(found) and is_cut(whole, found, (1, b"lrt: " + CANNOT_WRITE + b"\n"))


def interrupted_writing(case, whole, found):
    """What writes another answer than to lines, or a fault, writes on. What writes answers to lines takes it for a fault."""
    takes_up = not (answers_lines(case) and found.faults[OUTPUT])
    return (is_same if takes_up else writing)(case, whole, found)


# `call`, `kind`, `goes_on` and `then_output` are what faults.c is told. `rule` says whether the answer `found` may come
# where `whole` does without a fault.
Fault = namedtuple("Fault", "call kind goes_on rule then_output", defaults=(False,))


def same_or(rule):
    """Nothing comes of the fault, or what the rule says."""
    return lambda case, whole, found: is_same(case, whole, found) or rule(case, whole, found)


def behind_one_byte(writing):
    """A write that had more to take is followed by one of standard output that fails, as `writing` says."""

    def rule(case, whole, found):
        followed = found.faults[OUTPUT] - (not found.faults[ERRORS])
        if followed < 1:
            return is_same(case, whole, found)
        return writing(case, whole, found._replace(faults=(0, followed, 0, 0)))

    return rule


def faults_by(memory_used_up, opening, reading, writing, interrupted_reading=is_same, interrupted_writing=is_same):
    """The faults that are tried, with these rules. What is interrupted is taken up again where no other rule is given."""
    return {
        "memory-refused": Fault("memory", "refused", False, same_or(memory_used_up)),
        "memory-refused-from-there-on": Fault("memory", "refused", True, memory_used_up),
        "open-fails": Fault("open", "EIO", False, opening),
        "open-interrupted": Fault("open", "EINTR", False, is_same),
        "read-fails": Fault("read", "EIO", False, reading),
        "read-fails-from-there-on": Fault("read", "EIO", True, reading),
        "read-fails-then-output-fails": Fault("read", "EIO", False, reading, True),
        "read-interrupted": Fault("read", "EINTR", False, interrupted_reading),
        "read-of-one-byte": Fault("read", "one-byte", False, is_same),
        "reads-of-one-byte-from-there-on": Fault("read", "one-byte", True, is_same),
        "write-fails": Fault("write", "EIO", False, writing),
        "write-fails-from-there-on": Fault("write", "EIO", True, writing),
        "write-of-nothing": Fault("write", "nothing", False, writing),
        "write-interrupted": Fault("write", "EINTR", False, interrupted_writing),
        "write-of-one-byte": Fault("write", "one-byte", False, is_same),
        "write-of-one-byte-then-output-fails": Fault("write", "one-byte", False, behind_one_byte(writing), True),
        "writes-of-one-byte-from-there-on": Fault("write", "one-byte", True, is_same),
        "close-fails": Fault("close", "EIO", False, is_same),
    }


FAULTS = faults_by(memory_used_up, opening, reading, writing, interrupted_reading, interrupted_writing)
