"""JSON read into values that know their line and column."""

import json
import re
from bisect import bisect_right
from json.decoder import JSONDecodeError, scanstring

NUMBER = re.compile(r"-?(?:0|[1-9][0-9]*)(?:\.[0-9]+)?(?:[eE][+-]?[0-9]+)?")
SPACE = re.compile(r"[ \t\r\n]*")
WORDS = {"true": True, "false": False, "null": None}
DEEPEST = 20


class TextError(Exception):
    """A fault of a text, with its line, its column and the path of its field."""

    def __init__(self, message, line, column, path=""):
        """Keeps the fault and its place."""
        super().__init__(message)
        self.message, self.line, self.column, self.path = message, line, column, path

    def told(self, file):
        """The sentence for people."""
        field = f"{self.path}: " if self.path else ""
        return f"{file}: line {self.line}, column {self.column}: {field}{self.message}"


class Node:
    """A value: its kind, what it holds (a number holds its text), and its place."""

    __slots__ = ("kind", "value", "line", "column")

    def __init__(self, kind, value, place):
        """Keeps the value and its line and column."""
        self.kind, self.value = kind, value
        self.line, self.column = place


def quoted(text):
    """A string as it stands in a message."""
    return json.dumps(text)


class Reader:
    """One pass over a text."""

    def __init__(self, text):
        """Starts at the front; notes where each line starts."""
        self.text, self.at = text, 0
        self.starts = [0] + [match.end() for match in re.finditer("\n", text)]

    def place(self, at):
        """The line and the column of a place, both from 1."""
        line = bisect_right(self.starts, at)
        return line, at - self.starts[line - 1] + 1

    def fail(self, message, at=None):
        """Refuses the text at a place."""
        raise TextError(message, *self.place(self.at if at is None else at))

    def peek(self):
        """The next character that is no space; empty at the end."""
        self.at = SPACE.match(self.text, self.at).end()
        return self.text[self.at : self.at + 1]

    def expect(self, mark):
        """Steps over a mark."""
        if self.peek() != mark:
            self.fail(f"{quoted(mark)} is missing here")
        self.at += 1

    def string(self):
        """A string in quotes."""
        if self.peek() != '"':
            self.fail("a name in quotes is missing here")
        try:
            value, self.at = scanstring(self.text, self.at + 1, True)
        except JSONDecodeError as error:
            self.fail(f"not JSON: {error.msg[:1].lower()}{error.msg[1:]}", error.pos)
        return value

    def scalar(self, place):
        """A number or a word."""
        match = NUMBER.match(self.text, self.at)
        if match:
            self.at = match.end()
            return Node("number", match.group(), place)
        for word, value in WORDS.items():
            if self.text.startswith(word, self.at):
                self.at += len(word)
                return Node("word", value, place)
        return self.fail("not JSON: a value is missing here")

    def value(self, depth=0):
        """Any value."""
        mark = self.peek()
        place = self.place(self.at)
        if depth > DEEPEST:
            self.fail("nested too deeply")
        if mark == "{":
            return Node("object", self.members(depth), place)
        if mark == "[":
            return Node("list", self.entries(depth), place)
        if mark == '"':
            return Node("string", self.string(), place)
        return self.scalar(place)

    def more(self, end):
        """Steps over the comma or the end after an entry; whether another entry follows."""
        mark = self.peek()
        if mark not in (",", end):
            self.fail(f"a comma or {quoted(end)} is missing here")
        self.at += 1
        return mark == ","

    def entries(self, depth):
        """The entries of a list."""
        found, self.at = [], self.at + 1
        if self.peek() == "]":
            self.at += 1
            return found
        found.append(self.value(depth + 1))
        while self.more("]"):
            found.append(self.value(depth + 1))
        return found

    def member(self, found, depth):
        """One member of an object."""
        self.peek()
        start = self.at
        key = self.string()
        if key in found:
            self.fail(f"{quoted(key)} stands here a second time", start)
        self.expect(":")
        found[key] = self.value(depth + 1)

    def members(self, depth):
        """The members of an object, in order."""
        found, self.at = {}, self.at + 1
        if self.peek() == "}":
            self.at += 1
            return found
        self.member(found, depth)
        while self.more("}"):
            self.member(found, depth)
        return found


def read(data):
    """The value of a file's bytes."""
    try:
        text = data.decode("utf-8-sig")
    except UnicodeDecodeError as error:
        line = data.count(b"\n", 0, error.start) + 1
        column = error.start - (data.rfind(b"\n", 0, error.start) + 1) + 1
        raise TextError("not UTF-8", line, column) from None
    reader = Reader(text)
    node = reader.value()
    if reader.peek():
        reader.fail("not JSON: something stands after the end")
    return node
