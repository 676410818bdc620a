"""The byte records: a model and a call written and read, an answer read."""

import struct
from struct import calcsize, pack, unpack_from

from .case import DISTANCE, FIXED, NO_NUMBER, PAIR, Case, Joint, Link

MODEL, CALL, ANSWER = 1, 2, 3
VERSION = 1
MOST_LINKS, MOST_MOVING, MOST_LOADS, MOST_FIGURES = 64, 63, 256, 69


class RecordError(Exception):
    """A record that breaks its layout, with the byte where it does."""

    def __init__(self, message, at):
        """Keeps the fault and its place."""
        super().__init__(f"byte {at}: {message}")


def floats_out(values):
    """Patterns as bytes."""
    return pack(f">{len(values)}Q", *values)


def record(kind, body):
    """A record: length, version, kind, body."""
    return pack(">IBB", 2 + len(body), VERSION, kind) + body


def write_model(case):
    """The model record."""
    parts = [pack(">HH", len(case.links), case.moving)]
    parts += [floats_out(link.floats) for link in case.links]
    for joint in case.joints:
        parts.append(pack(">BHH", joint.kind, joint.parent, joint.number) + floats_out(joint.floats))
    return record(MODEL, b"".join(parts))


def write_call(case):
    """The call record."""
    parts = [pack(">BB", case.function, case.mode), floats_out(case.base), pack(">HH", case.moving, len(case.loads))]
    parts += [pack(">BQQ", *pose) for pose in case.poses]
    parts += [floats_out(case.speeds), floats_out(case.accelerations)]
    parts += [pack(">H", link) + floats_out(wrench) for link, wrench in case.loads]
    return record(CALL, b"".join(parts))


def write(case):
    """The program's input."""
    return write_model(case) + write_call(case)


class Bytes:
    """Bytes read from the front on."""

    def __init__(self, data):
        """Starts at the front."""
        self.data, self.at = data, 0

    def take(self, form):
        """The numbers of a form."""
        try:
            values = unpack_from(">" + form, self.data, self.at)
        except struct.error:
            raise RecordError("the record ends too early", len(self.data)) from None
        self.last = self.at
        self.at += calcsize(">" + form)
        return values

    def floats(self, count):
        """So many patterns."""
        return list(self.take(f"{count}Q"))

    def check(self, good, message):
        """Refuses what was taken last."""
        if not good:
            raise RecordError(message, self.last)

    def head(self, kind, name):
        """The head of a record of a kind; the length of what follows the kind."""
        length, version, found = self.take("IBB")
        self.check(version == VERSION, f"the {name} record's version is {version}, not {VERSION}")
        self.check(found == kind, f"the {name} record's kind is {found}, not {kind}")
        return length


def read_joint(source, j):
    """One joint."""
    kind, parent, number = source.take("BHH")
    source.check(kind <= 2, f"joint {j} has the kind {kind}")
    source.check(kind != FIXED or number == NO_NUMBER, f"joint {j} is fixed and has the number {number}")
    return Joint(f"joint{j}", kind, parent, number, source.floats(10))


def read_model(source, case):
    """The model record into the case."""
    length = source.head(MODEL, "model")
    links, case.moving = source.take("HH")
    source.check(1 <= links <= MOST_LINKS, f"{links} links; a model has 1 to {MOST_LINKS}")
    source.check(case.moving <= MOST_MOVING, f"{case.moving} moving joints; a model has at most {MOST_MOVING}")
    source.check(length == 6 + 104 * links + 85 * (links - 1), f"the model record's length is {length}")
    case.links = [Link(f"link{i}", source.floats(13)) for i in range(links)]
    case.joints = [read_joint(source, j) for j in range(links - 1)]


def read_pose(source, i):
    """One pose entry."""
    tag, first, second = source.take("BQQ")
    source.check(tag in (PAIR, DISTANCE), f"pose {i} has the tag {tag}")
    source.check(tag == PAIR or second == 0, f"pose {i} is a distance and its second float is not +0")
    return tag, first, second


def read_call(source, case):
    """The call record into the case."""
    length = source.head(CALL, "call")
    case.function, case.mode = source.take("BB")
    source.check(1 <= case.function <= 3, f"the function is {case.function}")
    source.check(case.mode <= 1, f"the mode is {case.mode}")
    case.base = source.floats(19)
    moving, loads = source.take("HH")
    source.check(moving == case.moving, f"the call has {moving} positions, the model {case.moving} moving joints")
    source.check(loads <= MOST_LOADS, f"{loads} loads; a call has at most {MOST_LOADS}")
    source.check(length == 160 + 33 * moving + 50 * loads, f"the call record's length is {length}")
    case.poses = [read_pose(source, i) for i in range(moving)]
    case.speeds, case.accelerations = source.floats(moving), source.floats(moving)
    case.loads = [(source.take("H")[0], source.floats(6)) for _ in range(loads)]


def read(data):
    """The case of a model record and a call record, nothing after them."""
    source, case = Bytes(data), Case()
    read_model(source, case)
    read_call(source, case)
    if source.at != len(data):
        raise RecordError("something stands after the call record", source.at)
    return case


def read_answer(data):
    """The number and the figures of an answer record."""
    source = Bytes(data)
    length = source.head(ANSWER, "answer")
    number, count = source.take("BH")
    source.check(number <= 9, f"the number is {number}; an answer's is 0 to 9")
    source.check(count <= MOST_FIGURES, f"{count} figures; an answer has at most {MOST_FIGURES}")
    source.check(number == 0 or count == 0, f"refused, and {count} figures")
    source.check(length == 5 + 8 * count, f"the answer record's length is {length}")
    figures = source.floats(count)
    if source.at != len(data):
        raise RecordError("something stands after the answer record", source.at)
    return number, figures
