"""The text form written: a case into a JSON text."""

import json

from .case import DISTANCE, FIXED, FUNCTIONS, KINDS, MODES, PRISMATIC, word_for
from .floats import to_json

WIDTH = 110


class Float:
    """A float's pattern that is to be written."""

    def __init__(self, bits):
        """Keeps the pattern."""
        self.bits = bits


def floats(values):
    """Patterns that are to be written."""
    return [Float(bits) for bits in values]


def link_name(case, number):
    """A link's name; the number itself where it names no link."""
    return case.links[number].name if number < len(case.links) else number


def link_table(link):
    """One link."""
    parts = floats(link.floats)
    return {"name": link.name, "mass": parts[0], "centre": parts[1:4], "inertia": [parts[4:7], parts[7:10], parts[10:]]}


def joint_table(case, place):
    """One joint."""
    joint = case.joints[place]
    parts = floats(joint.floats)
    table = {"name": joint.name, "kind": word_for(KINDS, joint.kind), "parent": link_name(case, joint.parent)}
    table["child"] = case.links[place + 1].name
    if joint.kind != FIXED:
        table["number"] = joint.number
    return {**table, "origin": {"rotation": parts[:4], "translation": parts[4:7]}, "axis": parts[7:]}


def pose_entry(pose, kind):
    """One pose entry; kind is the joint's, or None where no one joint has the number."""
    tag, first, second = pose
    if tag != DISTANCE:
        return [Float(first), Float(second)]
    return Float(first) if kind == PRISMATIC else {"distance": Float(first)}


def motion_tables(case):
    """Positions, speeds and accelerations: by name, or as lists where the joints' numbers give no order."""
    order = case.by_number()
    kinds = [joint.kind for joint in order] if order is not None else [None] * case.moving
    poses = [pose_entry(pose, kind) for pose, kind in zip(case.poses, kinds)]
    lists = {"positions": poses, "speeds": floats(case.speeds), "accelerations": floats(case.accelerations)}
    if order is None:
        return lists
    return {key: {joint.name: value for joint, value in zip(order, values)} for key, values in lists.items()}


def twist_table(values):
    """An angular part and a linear part."""
    return {"angular": floats(values[:3]), "linear": floats(values[3:])}


def case_table(case):
    """The whole text as a table."""
    table = {"links": [link_table(link) for link in case.links]}
    table["joints"] = [joint_table(case, place) for place in range(len(case.joints))]
    if case.moving != len(case.movers()):
        table["moving"] = case.moving
    base = {"rotation": floats(case.base[:4]), "translation": floats(case.base[4:7])}
    base.update(velocity=twist_table(case.base[7:13]), acceleration=twist_table(case.base[13:]))
    call = {"function": word_for(FUNCTIONS, case.function), "mode": word_for(MODES, case.mode), "base": base}
    loads = [
        {"link": link_name(case, link), "torque": floats(wrench[:3]), "force": floats(wrench[3:])}
        for link, wrench in case.loads
    ]
    table["call"] = {**call, **motion_tables(case), "loads": loads}
    return table


def one_line(value, hexadecimal):
    """A value on one line."""
    if isinstance(value, Float):
        return to_json(value.bits, hexadecimal)
    if isinstance(value, dict):
        return "{" + ", ".join(f"{json.dumps(key)}: {one_line(part, hexadecimal)}" for key, part in value.items()) + "}"
    if isinstance(value, list):
        return "[" + ", ".join(one_line(part, hexadecimal) for part in value) + "]"
    return json.dumps(value)


def lines(value, hexadecimal, depth=0):
    """A value on one line where it fits, else with one line or more for each part."""
    flat = one_line(value, hexadecimal)
    if not isinstance(value, (dict, list)) or not value or (depth > 1 and len(flat) + 2 * depth <= WIDTH):
        return flat
    pad = "  " * (depth + 1)
    if isinstance(value, dict):
        parts = [f"{pad}{json.dumps(key)}: {lines(part, hexadecimal, depth + 1)}" for key, part in value.items()]
    else:
        parts = [pad + lines(part, hexadecimal, depth + 1) for part in value]
    marks = "{}" if isinstance(value, dict) else "[]"
    return marks[0] + "\n" + ",\n".join(parts) + "\n" + "  " * depth + marks[1]


def write(case, hexadecimal=False):
    """The text of a case."""
    return lines(case_table(case), hexadecimal) + "\n"
