"""The framing of a stream of byte strings: a length of four bytes, then the bytes."""


def split(stream):
    """The byte strings of a stream."""
    parts, at = [], 0
    while at < len(stream):
        length = int.from_bytes(stream[at : at + 4], "big")
        parts.append(stream[at + 4 : at + 4 + length])
        at += 4 + length
    return parts


def join(parts):
    """The stream of byte strings."""
    return b"".join(len(part).to_bytes(4, "big") + part for part in parts)
