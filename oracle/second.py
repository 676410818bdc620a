#!/usr/bin/env python3
"""The second reading of document 01 as a program: answer, batch, lib-batch or buffer-run."""

import sys

sys.dont_write_bytecode = True

from reading import buffer, frames, library, records


def main(words):
    """Reads standard input and writes the mode's answers."""
    data = sys.stdin.buffer.read()
    modes = {
        "answer": lambda: records.answer(data),
        "batch": lambda: frames.join(map(records.answer, frames.split(data))),
        "lib-batch": lambda: frames.join(map(library.answer, frames.split(data))),
        "buffer-run": lambda: frames.join(buffer.run(frames.split(data))),
    }
    if len(words) != 1 or words[0] not in modes:
        sys.exit("second.py " + " | ".join(modes))
    sys.stdout.buffer.write(modes[words[0]]())


if __name__ == "__main__":
    main(sys.argv[1:])
