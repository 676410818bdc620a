"""The arm as a picture in text: each link under its parent, with the joint that leads to it."""

from .case import FIXED, KINDS, word_for


def joint_words(joint):
    """A joint's name, kind and, where it moves, its number."""
    number = "" if joint.kind == FIXED else f" {joint.number}"
    return f"{joint.name} ({word_for(KINDS, joint.kind)}{number})"


def load_words(case, link):
    """How many loads a link bears, where it bears any."""
    count = sum(1 for place, _ in case.loads if place == link)
    return "" if not count else f"  <- {count} load{'s' if count > 1 else ''}"


def branches(case, link, indent):
    """The lines of what hangs on a link; a parent that is no earlier link hangs on none."""
    children = [place for place, joint in enumerate(case.joints) if joint.parent == link and joint.parent <= place]
    lines = []
    for place in children:
        last = place == children[-1]
        below = case.links[place + 1].name + load_words(case, place + 1)
        lines.append(f"{indent}{'`-' if last else '|-'} {joint_words(case.joints[place])} -- {below}")
        lines += branches(case, place + 1, indent + ("   " if last else "|  "))
    return lines


def drawing(case):
    """The whole arm, from its root."""
    return "\n".join([case.links[0].name + load_words(case, 0), *branches(case, 0, "")])
