"""The refusal numbers: what each means, and which entry of a case it is about."""

from .case import COMPONENTS, DISTANCE, FIXED, GRAVITY, INVERSE, PRISMATIC, REVOLUTE, VELOCITY
from .floats import is_finite, times, to_word, value_of
from .records import MOST_LINKS, MOST_LOADS, MOST_MOVING

MEANINGS = {
    1: "the model isn't good",
    2: "the base state breaks its rule",
    3: "a list, output or lent table has the wrong length",
    4: "a finite pose entry is of the wrong kind or fails the unit test",
    5: "a position, speed, acceleration or load is not finite",
    6: "a load's id or link is not the model's",
    7: "a load sum is not finite",
    8: "a result is not finite",
    9: "a byte record breaks its layout",
}
MARGIN = 2.0**-40
WANTED = {REVOLUTE: ("revolute", "half-angle pair"), PRISMATIC: ("prismatic", "distance")}


def unit(values):
    """Whether patterns pass the unit test: the sum of squares, left to right, is near enough to 1."""
    total = value_of(times(values[0], values[0]))
    for bits in values[1:]:
        total += value_of(times(bits, bits))
    return 1.0 - MARGIN <= total <= 1.0 + MARGIN


def not_finite(path, values):
    """The first entry that is not finite, as a list of at most one (path, reason)."""
    for place, bits in enumerate(values):
        if not is_finite(bits):
            return [(path, f"is {to_word(bits)}" if len(values) == 1 else f"its entry {place} is {to_word(bits)}")]
    return []


def not_unit(path, values):
    """A complaint where the values fail the unit test."""
    return [] if unit(values) else [(path, "fails the unit test: its squares must add up to 1 within 2^-40")]


def link_faults(path, link):
    """What is wrong with a link."""
    mass, centre, inertia = link.floats[0], link.floats[1:4], link.floats[4:]
    found = not_finite(f"{path}.mass", [mass]) + not_finite(f"{path}.centre", centre)
    found += not_finite(f"{path}.inertia", inertia)
    if not found and value_of(mass) < 0:
        found = [(f"{path}.mass", "is below 0")]
    if not found and not_finite("", [times(mass, part) for part in centre]):
        found = [(f"{path}.centre", "times the mass is not finite")]
    return found


def joint_faults(case, place, path):
    """What is wrong with a joint."""
    joint = case.joints[place]
    rotation, translation, axis = joint.floats[:4], joint.floats[4:7], joint.floats[7:]
    found = []
    if joint.parent > place:
        found.append((f"{path}.parent", f"is link {joint.parent}; the parent of joint {place} is at most link {place}"))
    others = [other.number for other in case.movers() if other is not joint]
    if joint.kind != FIXED and (joint.number >= case.moving or joint.number in others):
        found.append((f"{path}.number", "the moving joints hold the numbers 0 to m-1, each exactly once"))
    found += not_finite(f"{path}.origin.rotation", rotation) or not_unit(f"{path}.origin.rotation", rotation)
    found += not_finite(f"{path}.origin.translation", translation) + not_finite(f"{path}.axis", axis)
    if joint.kind != FIXED and not not_finite("", axis):
        found += not_unit(f"{path}.axis", axis)
    return found


def model_faults(case):
    """What is wrong with the model."""
    found = [fault for i, link in enumerate(case.links) for fault in link_faults(f"links[{i}]", link)]
    found += [fault for j in range(len(case.joints)) for fault in joint_faults(case, j, f"joints[{j}]")]
    if case.moving != len(case.movers()):
        found.append(("moving", f"is {case.moving}, and {len(case.movers())} joints move"))
    return found


def base_faults(case):
    """What is wrong with the base state."""
    rotation = case.base[:4]
    found = not_finite("call.base.rotation", rotation) or not_unit("call.base.rotation", rotation)
    found += not_finite("call.base.translation", case.base[4:7])
    for name, at in (("velocity", 7), ("acceleration", 13)):
        found += not_finite(f"call.base.{name}.angular", case.base[at : at + 3])
        found += not_finite(f"call.base.{name}.linear", case.base[at + 3 : at + 6])
    return found


def pose_faults(case):
    """The pose entries that are finite and of the wrong kind or no unit pair."""
    found = []
    for joint, pose, path in zip(case.by_number() or [], case.poses, case.paths["positions"]):
        kind, wanted = WANTED[joint.kind]
        if (pose[0] == DISTANCE) == (joint.kind == REVOLUTE):
            found.append((path, f"must be a {wanted}, since the joint is {kind}"))
        elif pose[0] != DISTANCE:
            found += not_unit(path, pose[1:])
    return found


def infinite_faults(case):
    """The positions, speeds, accelerations and loads that are not finite, as far as the function takes them."""
    found = []
    for pose, path in zip(case.poses, case.paths["positions"]):
        found += not_finite(path, pose[1:2] if pose[0] == DISTANCE else pose[1:])
    taken = {"speeds": case.function != GRAVITY, "accelerations": case.function == INVERSE}
    for name in (name for name in taken if taken[name]):
        for bits, path in zip(getattr(case, name), case.paths[name]):
            found += not_finite(path, [bits])
    for place, (_, wrench) in enumerate(case.loads if case.function != VELOCITY else []):
        found += not_finite(f"call.loads[{place}].torque", wrench[:3])
        found += not_finite(f"call.loads[{place}].force", wrench[3:])
    return found


def stray_loads(case):
    """The loads on a link that the model has not."""
    count = len(case.links)
    return [
        (f"call.loads[{place}].link", f"is link {link}; the model's are 0 to {count - 1}")
        for place, (link, _) in enumerate(case.loads)
        if link >= count
    ]


def tipping_load(case):
    """The load by which a sum is no longer finite."""
    sums = {}
    for place, (link, wrench) in enumerate(case.loads):
        old = sums.get(link, [0.0] * 6)
        sums[link] = [a + value_of(bits) for a, bits in zip(old, wrench)]
        for part, value in enumerate(sums[link]):
            if value - value != 0.0:
                name = ("torque", "force")[part // 3]
                return [(f"call.loads[{place}].{name}", f"tips the sum of its link in {COMPONENTS[part % 3]}")]
    return []


def count_faults(case):
    """The counts that fit no layout."""
    counts = (
        ("links", len(case.links), MOST_LINKS),
        ("moving", case.moving, MOST_MOVING),
        ("call.loads", len(case.loads), MOST_LOADS),
    )
    return [(path, f"{count} of them, and at most {most} fit") for path, count, most in counts if count > most]


FINDERS = {
    1: model_faults, 2: base_faults, 4: pose_faults, 5: infinite_faults, 6: stray_loads, 7: tipping_load, 9: count_faults,
}


def entry(case, number):
    """The first entry that a refusal is about: path, line and reason; None where the text doesn't tell."""
    found = FINDERS[number](case) if number in FINDERS else []
    if not found:
        return None
    path, reason = found[0]
    known = path
    while known and known not in case.lines:
        known = known[: max(known.rfind("."), known.rfind("["), 0)]
    return {"field": path, "line": case.lines.get(known), "reason": reason}
