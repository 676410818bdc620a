"""The text form's model read: links and joints into a case."""

from . import floats
from .case import FIXED, KINDS, NO_NUMBER, NO_TURN, Joint, Link
from .fields import LARGEST
from .floats import ZERO
from .jsontext import quoted

NOTHING = [ZERO] * 3


def read_pair(fields):
    """The half-angle pair of an object that has an angle or a pair."""
    if "pair" in fields:
        return fields["pair"].floats(2)
    return floats.half_angle(fields["angle"].float())


def read_rotation(field):
    """A rotation: four floats, or a half angle about an axis."""
    if field is None:
        return [*NO_TURN]
    if field.kind == "list":
        return field.floats(4)
    if field.kind != "object":
        field.fail("must be a list of 4 floats (w, i, j, k), or an axis and an angle or pair")
    fields = field.table(("axis",), ("angle", "pair"))
    if ("angle" in fields) == ("pair" in fields):
        field.fail('must have either "angle" or "pair"')
    sine, cosine = read_pair(fields)
    return [cosine, *(floats.times(sine, part) for part in fields["axis"].floats(3))]


def read_vector(field):
    """A vector; +0 where it is not given."""
    return [*NOTHING] if field is None else field.floats(3)


def read_inertia(field):
    """The inertia by rows: three rows, or the three diagonal entries alone."""
    entries = field.entries("three rows of 3 floats, or 3 floats for the diagonal")
    if len(entries) != 3:
        field.fail(f"must have 3 entries, not {len(entries)}")
    if entries[0].kind == "list":
        return [part for row in entries for part in row.floats(3)]
    diagonal = field.floats(3)
    return [diagonal[row] if row == column else ZERO for row in range(3) for column in range(3)]


def named(fields, kind):
    """The place of each name in a list of tables; a name stands once."""
    places = {}
    for place, field in enumerate(fields):
        label = field.members().get("name") or field.fail('the field "name" is missing')
        name = label.name()
        if name in places:
            label.fail(f"{quoted(name)} is also the name of {kind}[{places[name]}]")
        places[name] = place
    return places


def link_number(field, links):
    """The number of a link given by name; a number that names no link may stand as a number."""
    if field.kind == "number":
        return field.whole()
    name = field.name()
    if name not in links:
        field.fail(f"{quoted(name)} is no link; known are {', '.join(links)}")
    return links[name]


def read_link(field):
    """One link."""
    fields = field.table(("name", "mass", "centre", "inertia"))
    parts = [fields["mass"].float(), *fields["centre"].floats(3), *read_inertia(fields["inertia"])]
    return Link(fields["name"].name(), parts)


def read_origin(field):
    """Origin rotation and translation; each part not given is no turn and no way."""
    fields = field.table((), ("rotation", "translation")) if field else {}
    return read_rotation(fields.get("rotation")) + read_vector(fields.get("translation"))


def read_joint(field, place, links):
    """One joint; its number is given later where the text does not give it."""
    fields = field.table(("name", "kind", "parent"), ("child", "number", "origin", "axis"))
    kind = fields["kind"].choice(KINDS)
    child = fields.get("child")
    if child and link_number(child, links) != place + 1:
        child.fail(f"joints[{place}] leads to links[{place + 1}]: joints stand in the order of the links they lead to")
    if kind == FIXED and "number" in fields:
        fields["number"].fail("a fixed joint has no number")
    if kind != FIXED and "axis" not in fields:
        field.fail('the field "axis" is missing')
    number = fields["number"].whole() if "number" in fields else None
    parts = read_origin(fields.get("origin")) + read_vector(fields.get("axis"))
    return Joint(fields["name"].name(), kind, link_number(fields["parent"], links), number, parts)


def number_joints(case, fields):
    """Gives each joint its number: those of the text, or the order of the moving joints."""
    given = [joint.number is not None for joint in case.joints if joint.kind != FIXED]
    count = 0
    for joint, field in zip(case.joints, fields):
        if joint.kind == FIXED:
            joint.number = NO_NUMBER
            continue
        if any(given) and joint.number is None:
            field.fail('the field "number" is missing: give all moving joints a number, or none')
        if joint.number is None:
            joint.number = count
        count += 1


def read_model(case, top):
    """Links and joints into the case; the links' numbers by name."""
    links, joints = top["links"].entries("a list of links"), top["joints"].entries("a list of joints")
    if not 1 <= len(links) <= LARGEST:
        top["links"].fail("a model has at least one link")
    if len(joints) != len(links) - 1:
        needed = len(links) - 1
        top["joints"].fail(f"{len(links)} links need {needed} joints, one to each but the first; here are {len(joints)}")
    places = named(links, "links")
    named(joints, "joints")
    case.links = [read_link(field) for field in links]
    case.joints = [read_joint(field, place, places) for place, field in enumerate(joints)]
    number_joints(case, joints)
    case.moving = top["moving"].whole() if "moving" in top else len(case.movers())
    return places
