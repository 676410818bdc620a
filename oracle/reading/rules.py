"""Document 01's refusals and their order."""

from .floats import finite, unit, plus, ZERO
from .tree import Tree

INVERSE, GRAVITY, VELOCITY = 1, 2, 3


def good_link(link):
    """Whether a link's numbers are good."""
    mass = link[0]
    return finite(link) and mass >= 0.0 and finite([mass * x for x in link[1:4]])


def good_joint(case, j):
    """Whether a joint's parent, kind and floats are good."""
    kind, floats = case.kinds[j], case.joints[j]
    if kind > 2 or case.parents[j] > j or not finite(floats):
        return False
    return unit(floats[:4]) and (kind == 0 or unit(floats[7:]))


def good_model(case):
    """Whether the model is good."""
    if not 1 <= case.count <= 64:
        return False
    moving = [n for kind, n in zip(case.kinds, case.numbers) if kind != 0]
    fixed = [n for kind, n in zip(case.kinds, case.numbers) if kind == 0]
    if len(moving) != case.moving or sorted(moving) != list(range(len(moving))):
        return False
    if any(n != 65535 for n in fixed):
        return False
    return all(map(good_link, case.links)) and all(good_joint(case, j) for j in range(case.count - 1))


def good_base(base):
    """Whether the base state is good."""
    return finite(base) and unit(base[:4])


def entry_refusal(pose, kind):
    """The refusal of one pose entry: 5 before 4."""
    tag, first, second = pose
    if tag == 1:
        if not finite((first, second)):
            return 5
        return 0 if kind == 1 and unit((first, second)) else 4
    if not finite((first,)):
        return 5
    return 0 if kind == 2 else 4


def positions_refusal(case):
    """The refusal of the positions."""
    if case.posed != case.moving:
        return 3
    kind_of = {n: kind for kind, n in zip(case.kinds, case.numbers) if kind != 0}
    for n, pose in enumerate(case.poses):
        refusal = entry_refusal(pose, kind_of[n])
        if refusal:
            return refusal
    return 0


def list_refusal(values, length):
    """The refusal of speeds or accelerations."""
    if len(values) != length:
        return 3
    return 0 if finite(values) else 5


def lists_refusal(case):
    """The first refusal among speeds, accelerations, output and the count of loads."""
    if case.function != GRAVITY:
        refusal = list_refusal(case.speeds, case.moving)
        if refusal:
            return refusal
    if case.function == INVERSE:
        refusal = list_refusal(case.accelerations, case.moving)
        if refusal:
            return refusal
    if case.room != case.moving + 6 * case.mode:
        return 3
    return 10 if case.function != VELOCITY and len(case.loads) > 256 else 0


def load_sums(case):
    """The load sums by link, or the refusal of the first load that has one."""
    sums = [(ZERO, ZERO)] * case.count
    for owner, link, values in case.loads:
        if owner != case.id or link >= case.count:
            return 6, None
        if not finite(values):
            return 5, None
        torque, force = sums[link]
        torque, force = plus(torque, values[:3]), plus(force, values[3:])
        if not finite(torque + force):
            return 7, None
        sums[link] = (torque, force)
    return 0, sums


def refusal_before_loads(case):
    """The first refusal before the loads are looked at."""
    if not good_model(case):
        return 1
    if not good_base(case.base):
        return 2
    return positions_refusal(case) or lists_refusal(case)


def answer(case):
    """The number, and the figures when the output is written."""
    refusal = refusal_before_loads(case)
    if refusal:
        return refusal, None
    sums = [(ZERO, ZERO)] * case.count
    if case.function != VELOCITY:
        refusal, sums = load_sums(case)
        if refusal:
            return refusal, None
    figures = Tree(case, sums).figures()
    return (0 if finite(figures) else 8), figures
