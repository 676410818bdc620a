"""The oracle's library-level cases: reading and answering them."""

from math import isnan
from struct import pack, unpack_from

from .case import Case
from .records import rows
from .rules import answer as answer_case

ANY_NAN = 0x7FF8000000000000


class Reader:
    """A place in a byte string that moves on with each read."""

    def __init__(self, data):
        """Starts at the front."""
        self.data, self.at = data, 0

    def take(self, form, size):
        """The next values of a struct form of a size."""
        values = unpack_from(">" + form, self.data, self.at)
        self.at += size
        return values

    def number(self):
        """The next number of eight bytes."""
        return self.take("Q", 8)[0]

    def floats(self, count):
        """The next floats."""
        return self.take(f"{count}d", 8 * count)


def read_model(case, reader):
    """Reads the model."""
    case.id, case.count, case.moving = reader.take("QQQ", 24)
    held = min(case.count, 64)
    case.links = rows(reader.data, reader.at, held, 13)
    reader.at += 104 * held
    case.kinds, case.parents, case.numbers, case.joints = [], [], [], []
    for _ in range(held - 1):
        kind, parent, number = reader.take("BQQ", 17)
        case.kinds.append(kind)
        case.parents.append(parent)
        case.numbers.append(number)
        case.joints.append(reader.floats(10))


def read(data):
    """Reads a case; the output at entry comes beside it as bits."""
    case, reader = Case(), Reader(data)
    case.function, case.mode = reader.take("BB", 2)
    read_model(case, reader)
    case.base = reader.floats(19)
    case.posed = reader.number()
    case.poses = [reader.take("Bdd", 17) for _ in range(min(case.posed, 63))]
    case.speeds = reader.floats(reader.number())
    case.accelerations = reader.floats(reader.number())
    loads = [reader.take("QQ6d", 64) for _ in range(reader.number())]
    case.loads = [(load[0], load[1], load[2:]) for load in loads]
    case.room = reader.number()
    return case, reader.take(f"{case.room}Q", 8 * case.room)


def figure_bits(figure):
    """A figure's bits; every NaN has the same."""
    return ANY_NAN if isnan(figure) else unpack_from(">Q", pack(">d", figure))[0]


def answer(data):
    """The number and the output at exit."""
    case, output = read(data)
    number, figures = answer_case(case)
    if figures is not None:
        output = [figure_bits(figure) for figure in figures]
    return pack(f">BQ{len(output)}Q", number, len(output), *output)
