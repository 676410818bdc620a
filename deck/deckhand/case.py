"""The values of one model and one call; every float is its pattern of 64 bits."""

from dataclasses import dataclass, field

from .floats import ONE, ZERO

FIXED, REVOLUTE, PRISMATIC = 0, 1, 2
INVERSE, GRAVITY, VELOCITY = 1, 2, 3
PAIR, DISTANCE = 1, 2
NO_NUMBER = 65535
KINDS = {"fixed": FIXED, "revolute": REVOLUTE, "prismatic": PRISMATIC}
FUNCTIONS = {"inverse dynamics": INVERSE, "gravity": GRAVITY, "velocity product": VELOCITY}
MODES = {"fixed": 0, "floating": 1}
NO_TURN = (ONE, ZERO, ZERO, ZERO)
COMPONENTS = ("x", "y", "z")


@dataclass
class Link:
    """A link: mass, centre (3), inertia by rows (9)."""

    name: str
    floats: list


@dataclass
class Joint:
    """A joint: origin rotation (4), origin translation (3), axis (3)."""

    name: str
    kind: int
    parent: int
    number: int
    floats: list


@dataclass
class Case:
    """A model and a call. Poses are (tag, first, second), loads are (link, six floats)."""

    links: list = field(default_factory=list)
    joints: list = field(default_factory=list)
    moving: int = 0
    function: int = INVERSE
    mode: int = 0
    base: list = field(default_factory=lambda: [*NO_TURN] + [ZERO] * 15)
    poses: list = field(default_factory=list)
    speeds: list = field(default_factory=list)
    accelerations: list = field(default_factory=list)
    loads: list = field(default_factory=list)
    paths: dict = field(default_factory=dict)
    lines: dict = field(default_factory=dict)

    def movers(self):
        """The moving joints, in the order of the model."""
        return [joint for joint in self.joints if joint.kind != FIXED]

    def by_number(self):
        """The moving joints by number, or None where the numbers are not 0 to m-1, each once."""
        movers = sorted(self.movers(), key=lambda joint: joint.number)
        good = [joint.number for joint in movers] == list(range(self.moving))
        return movers if good else None


def word_for(words, number):
    """The word that stands for a number."""
    return next(word for word, value in words.items() if value == number)
