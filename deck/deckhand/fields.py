"""Fields of a text: typed reading, with the path of the field in every complaint."""

import re

from . import floats
from .jsontext import TextError, quoted

PLAIN = re.compile(r"[A-Za-z_][A-Za-z0-9_-]*")
LARGEST = 65535


class Field:
    """A value and the path that leads to it."""

    def __init__(self, node, path=""):
        """Keeps both."""
        self.node, self.path = node, path

    @property
    def kind(self):
        """The kind of the value."""
        return self.node.kind

    def fail(self, message):
        """Refuses this field."""
        raise TextError(message, self.node.line, self.node.column, self.path)

    def want(self, kind, said):
        """Refuses any other kind; what the value holds."""
        if self.node.kind != kind:
            self.fail(f"must be {said}")
        return self.node.value

    def below(self, key):
        """The path of a member."""
        if not PLAIN.fullmatch(key):
            return f"{self.path}[{quoted(key)}]"
        return f"{self.path}.{key}" if self.path else key

    def members(self, said="an object"):
        """The members by name."""
        return {key: Field(node, self.below(key)) for key, node in self.want("object", said).items()}

    def entries(self, said="a list"):
        """The entries in order."""
        return [Field(node, f"{self.path}[{i}]") for i, node in enumerate(self.want("list", said))]

    def table(self, needed, allowed=()):
        """The members, all the needed ones present and none but these and the allowed ones."""
        found = self.members()
        for key, field in found.items():
            if key not in needed and key not in allowed:
                field.fail(f"is no field here; known are {', '.join([*needed, *allowed])}")
        for key in needed:
            if key not in found:
                self.fail(f"the field {quoted(key)} is missing")
        return found

    def name(self):
        """A name: printable and not empty."""
        value = self.want("string", "a name in quotes")
        if not value or not value.isprintable():
            self.fail("a name is one or more printable characters")
        return value

    def choice(self, words):
        """The number that a word stands for."""
        value = self.want("string", f"one of {', '.join(words)}")
        if value not in words:
            self.fail(f"{quoted(value)} is none of {', '.join(words)}")
        return words[value]

    def whole(self):
        """A whole number of two bytes."""
        text = self.want("number", "a whole number")
        if not text.isdigit() or len(text) > 5 or int(text) > LARGEST:
            self.fail(f"must be a whole number from 0 to {LARGEST}")
        return int(text)

    def float(self):
        """The pattern of a float."""
        if self.kind not in ("number", "string"):
            self.fail("must be a number, or a string that stands for a float")
        try:
            return floats.from_decimal(self.node.value) if self.kind == "number" else floats.from_word(self.node.value)
        except ValueError as error:
            return self.fail(f"{quoted(self.node.value) if self.kind == 'string' else self.node.value} {error}")

    def floats(self, count):
        """So many patterns."""
        entries = self.entries(f"a list of {count} floats")
        if len(entries) != count:
            self.fail(f"must be a list of {count} floats, not {len(entries)}")
        return [entry.float() for entry in entries]


def lines_of(field):
    """The line of every field, by its path."""
    lines, left = {}, [field]
    while left:
        field = left.pop()
        lines[field.path] = field.node.line
        if field.kind == "object":
            left.extend(field.members().values())
        elif field.kind == "list":
            left.extend(field.entries())
    return lines
