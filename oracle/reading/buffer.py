"""Load buffer scripts, answered by an ordered map of links to wrenches."""

from struct import pack, unpack_from

from .floats import finite

NEW, SET, ADD, REMOVE, CLEAR, LIST, LEN = range(1, 8)


class Buffer:
    """A model id, a link count, and the stored loads as pairs of link and six floats."""

    def __init__(self, owner, count):
        """An empty buffer."""
        self.owner, self.count, self.loads = owner, count, []

    def place(self, link):
        """The place of a link's load, or None."""
        for at, (stored, _) in enumerate(self.loads):
            if stored == link:
                return at
        return None

    def known(self, owner, link):
        """Whether a link is the buffer's."""
        return owner == self.owner and link < self.count

    def store(self, link, wrench):
        """Replaces or appends."""
        at = self.place(link)
        if at is None:
            self.loads.append((link, wrench))
        else:
            self.loads[at] = (link, wrench)

    def change(self, code, owner, link, wrench):
        """Sets or adds; the refusal number."""
        if not self.known(owner, link):
            return 6
        if not finite(wrench):
            return 5
        at = self.place(link)
        if code == ADD and at is not None:
            wrench = tuple(a + b for a, b in zip(self.loads[at][1], wrench))
            if not finite(wrench):
                return 7
        self.store(link, wrench)
        return 0

    def remove(self, owner, link):
        """Removes; the last load moves into a gap that is not the last place."""
        if not self.known(owner, link):
            return 6
        at = self.place(link)
        if at is not None:
            last = self.loads.pop()
            if at < len(self.loads):
                self.loads[at] = last
        return 0

    def listing(self, places):
        """The refusal number and the lent table at exit."""
        table = [(1000 + p, 2000 + p, *(6 * p + c + 0.5 for c in range(6))) for p in range(places)]
        if places < len(self.loads):
            return 3, table
        for at, (link, wrench) in enumerate(self.loads):
            table[at] = (self.owner, link, *wrench)
        return 0, table


def apply(buffer, operation):
    """One operation: the buffer after it, the refusal number and a listing's table."""
    code = operation[0]
    if code == NEW:
        owner, count = unpack_from(">QQ", operation, 1)
        good = 1 <= count <= 64
        return (Buffer(owner, count), 0, []) if good else (buffer, 1, [])
    if code == LIST:
        return (buffer, *buffer.listing(unpack_from(">Q", operation, 1)[0]))
    if code == CLEAR:
        buffer.loads = []
    if code in (CLEAR, LEN):
        return buffer, 0, []
    owner, link = unpack_from(">QQ", operation, 1)
    if code == REMOVE:
        return buffer, buffer.remove(owner, link), []
    return buffer, buffer.change(code, owner, link, unpack_from(">6d", operation, 17)), []


def run(operations):
    """The answers to a script's operations."""
    buffer, answers = None, []
    for operation in operations:
        buffer, number, table = apply(buffer, operation)
        parts = [pack(">BH", number, len(buffer.loads))]
        parts += [pack(">H6d", link, *wrench) for link, wrench in buffer.loads]
        parts += [pack(">QQ6d", *place) for place in table]
        answers.append(b"".join(parts))
    return answers
