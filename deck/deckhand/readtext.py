"""The text form read: a JSON text into a case."""

from . import floats, jsontext
from .case import DISTANCE, FIXED, FUNCTIONS, MODES, PAIR, PRISMATIC, Case
from .fields import LARGEST, Field, lines_of
from .floats import ZERO
from .jsontext import quoted
from .readmodel import link_number, read_model, read_pair, read_rotation, read_vector


def read_pose(field, kind):
    """A pose entry: an angle or a distance by the joint's kind, a pair, or an object that says which it is."""
    if field.kind == "list":
        return (PAIR, *field.floats(2))
    if field.kind == "object":
        fields = field.table((), ("angle", "pair", "distance"))
        if len(fields) != 1:
            field.fail('must have one of "angle", "pair" and "distance"')
        if "distance" in fields:
            return DISTANCE, fields["distance"].float(), ZERO
        return (PAIR, *read_pair(fields))
    if kind is None:
        field.fail('must be {"angle": ..}, {"pair": ..} or {"distance": ..}, since no one joint has this number')
    if kind == PRISMATIC:
        return DISTANCE, field.float(), ZERO
    return (PAIR, *floats.half_angle(field.float()))


def joint_fault(case, top):
    """Refuses numbers by which a table of joint names can't be put in order."""
    count = len(case.movers())
    if case.moving != count:
        top["moving"].fail(f"{count} joints move; with another count, positions, speeds and accelerations are lists")
    seen = {}
    for field, joint in zip(top["joints"].entries(), case.joints):
        number = field.members().get("number")
        if number is None:
            continue
        if joint.number >= count:
            number.fail(f"the numbers of {count} moving joints are 0 to {count - 1}")
        if joint.number in seen:
            number.fail(f"{joint.number} is also the number of {quoted(seen[joint.number])}")
        seen[joint.number] = joint.name


def spread(case, top, field, path, needed):
    """The entries of a list by joint number, with their paths; None where the text gives none."""
    if field is not None and field.kind == "list":
        entries = field.entries()
        if len(entries) != case.moving:
            field.fail(f"must have {case.moving} entries, one for each moving joint; here are {len(entries)}")
        return entries, [entry.path for entry in entries]
    given = field.members("an object by joint name, or a list by joint number") if field else {}
    order = case.by_number()
    if order is None:
        if not field and not needed:
            return [None] * case.moving, [path] * case.moving
        joint_fault(case, top)
    kinds = {joint.name: joint.kind for joint in case.joints}
    for name, entry in given.items():
        if kinds.get(name, FIXED) == FIXED:
            entry.fail("this joint is fixed" if name in kinds else f"{quoted(name)} is no joint")
    missing = [joint.name for joint in order if joint.name not in given]
    if needed and missing:
        (field or top["call"]).fail(f"the position of {', '.join(map(quoted, missing))} is missing")
    entries = [given.get(joint.name) for joint in order]
    return entries, [entry.path if entry else path for entry in entries]


def read_motion(case, top, call):
    """Positions, speeds and accelerations into the case."""
    kinds = [None] * case.moving
    for number in range(case.moving):
        found = [joint.kind for joint in case.movers() if joint.number == number]
        kinds[number] = found[0] if len(found) == 1 else None
    entries, case.paths["positions"] = spread(case, top, call.get("positions"), "call.positions", case.moving > 0)
    case.poses = [read_pose(entry, kind) for entry, kind in zip(entries, kinds)]
    for name in ("speeds", "accelerations"):
        entries, case.paths[name] = spread(case, top, call.get(name), f"call.{name}", False)
        setattr(case, name, [ZERO if entry is None else entry.float() for entry in entries])


def read_twist(field):
    """An angular part, then a linear part; +0 where one is not given."""
    fields = field.table((), ("angular", "linear")) if field else {}
    return read_vector(fields.get("angular")) + read_vector(fields.get("linear"))


def read_base(field):
    """The base state; no turn, no way and at rest where it is not given."""
    fields = field.table((), ("rotation", "translation", "velocity", "acceleration")) if field else {}
    frame = read_rotation(fields.get("rotation")) + read_vector(fields.get("translation"))
    return frame + read_twist(fields.get("velocity")) + read_twist(fields.get("acceleration"))


def read_load(field, links):
    """One load: the link's number and the wrench."""
    fields = field.table(("link",), ("torque", "force"))
    return link_number(fields["link"], links), read_vector(fields.get("torque")) + read_vector(fields.get("force"))


def read(data):
    """The case of a file's bytes; paths and lines tell where its entries stand."""
    field, case = Field(jsontext.read(data)), Case()
    top = field.table(("links", "joints", "call"), ("about", "moving"))
    if "about" in top:
        top["about"].want("string", "a string")
    links = read_model(case, top)
    lists = ("base", "positions", "speeds", "accelerations", "loads")
    call = top["call"].table(("function", "mode"), lists)
    case.function, case.mode = call["function"].choice(FUNCTIONS), call["mode"].choice(MODES)
    case.base = read_base(call.get("base"))
    read_motion(case, top, call)
    loads = call["loads"].entries("a list of loads") if "loads" in call else []
    if len(loads) > LARGEST:
        call["loads"].fail(f"more than {LARGEST} loads")
    case.loads = [read_load(load, links) for load in loads]
    case.lines = lines_of(field)
    return case
