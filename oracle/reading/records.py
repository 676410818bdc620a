"""Document 01's byte records: reading a model and a call, writing an answer."""

from struct import pack, unpack_from

from .case import Case
from .rules import answer as answer_case


def rows(data, at, count, width):
    """So many rows of floats from a place on."""
    flat = unpack_from(f">{count * width}d", data, at)
    return [flat[i * width : (i + 1) * width] for i in range(count)]


def record_at(data, at, kind):
    """The end of the record that starts at a place; None when it has not the kind."""
    if len(data) < at + 6:
        return None
    (length,) = unpack_from(">I", data, at)
    end = at + 4 + length
    if length < 2 or end > len(data) or data[at + 4] != 1 or data[at + 5] != kind:
        return None
    return end


def read_model(case, data):
    """Reads the model into the case; the record's end, or None."""
    end = record_at(data, 0, 1)
    if end is None or end < 10:
        return None
    n, m = unpack_from(">HH", data, 6)
    if not 1 <= n <= 64 or m > 63 or end != 4 + 6 + 104 * n + 85 * (n - 1):
        return None
    case.id, case.count, case.moving = 0, n, m
    case.links = rows(data, 10, n, 13)
    case.kinds, case.parents, case.numbers, case.joints = [], [], [], []
    for at in range(10 + 104 * n, end, 85):
        kind, parent, number = unpack_from(">BHH", data, at)
        if kind > 2 or (kind == 0 and number != 65535):
            return None
        case.kinds.append(kind)
        case.parents.append(parent)
        case.numbers.append(number)
        case.joints.append(unpack_from(">10d", data, at + 5))
    return end


def read_poses(case, data, at):
    """Reads the pose entries; whether their layout holds."""
    case.poses = []
    for place in range(at, at + 17 * case.posed, 17):
        tag = data[place]
        if tag not in (1, 2) or (tag == 2 and any(data[place + 9 : place + 17])):
            return False
        case.poses.append((tag, *unpack_from(">2d", data, place + 1)))
    return True


def read_call(case, data, start):
    """Reads the call into the case; whether the layout holds to the end of the data."""
    end = record_at(data, start, 2)
    if end is None or end != len(data) or end < start + 164:
        return False
    case.function, case.mode = data[start + 6], data[start + 7]
    case.base = unpack_from(">19d", data, start + 8)
    m, k = unpack_from(">HH", data, start + 160)
    if case.function not in (1, 2, 3) or case.mode > 1 or m != case.moving or k > 256:
        return False
    if end - start - 4 != 160 + 33 * m + 50 * k:
        return False
    case.posed, case.room = m, m + 6 * case.mode
    at = start + 164
    if not read_poses(case, data, at):
        return False
    case.speeds = unpack_from(f">{m}d", data, at + 17 * m)
    case.accelerations = unpack_from(f">{m}d", data, at + 25 * m)
    places = range(at + 33 * m, end, 50)
    loads = [unpack_from(">H6d", data, place) for place in places]
    case.loads = [(0, load[0], load[1:]) for load in loads]
    return True


def answer_record(number, figures):
    """The answer record; a refused one has no figures."""
    count = len(figures)
    return pack(f">IBBBH{count}d", 5 + 8 * count, 1, 3, number, count, *figures)


def answer(data):
    """The answer record to any bytes."""
    case = Case()
    end = read_model(case, data)
    if end is None or not read_call(case, data, end):
        return answer_record(9, ())
    number, figures = answer_case(case)
    return answer_record(number, figures if number == 0 else ())
