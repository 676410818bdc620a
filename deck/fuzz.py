#!/usr/bin/env python3
"""Raw bytes through a framed batch program: every input must get one well-formed answer record."""

import sys

sys.dont_write_bytecode = True

import argparse
import math
from collections import Counter
from pathlib import Path
from random import Random

from deckhand import program, readtext, records
from deckhand.case import FIXED, NO_NUMBER, PAIR, PRISMATIC, REVOLUTE, Case, Joint, Link
from deckhand.floats import ZERO, bits_of, is_finite

SAMPLES = Path(__file__).resolve().parent / "samples"
BATCH = 500
LARGEST = 0x7FEFFFFFFFFFFFFF
COUNTS = (0, 1, 2, 3, 62, 63, 64, 65, 69, 70, 255, 256, 257, 0x7FFF, 0x8000, 0xFFFE, 0xFFFF)
PATTERNS = (
    0, 1, 1 << 63, 0x000FFFFFFFFFFFFF, 0x3FF0000000000000, 0x3FF0000000000001, LARGEST, LARGEST | 1 << 63,
    0x7FF0000000000000, 0xFFF0000000000000, 0x7FF0000000000001, 0x7FF8000000000000, 0xFFFFFFFFFFFFFFFF,
)


def some(random, count):
    """So many floats of everyday size."""
    return [bits_of(random.uniform(-5, 5)) for _ in range(count)]


def unit(random, count):
    """So many floats that pass the unit test."""
    parts = [random.uniform(-1, 1) for _ in range(count - 1)] + [1.5]
    size = math.sqrt(sum(part * part for part in parts))
    return [bits_of(part / size) for part in parts]


def good_joint(random, place, number):
    """A good joint; a fixed one in one case of four."""
    kind = random.choice((FIXED, REVOLUTE, REVOLUTE, PRISMATIC))
    parts = unit(random, 4) + some(random, 3) + unit(random, 3)
    return Joint("", kind, random.randrange(place + 1), NO_NUMBER if kind == FIXED else number, parts)


def good_case(random):
    """A good model and a good call for it."""
    case, count = Case(), random.choice((1, 2, 3, 5, 8, random.randint(1, 64), 64))
    case.links = [Link("", [bits_of(random.uniform(0, 9))] + some(random, 12)) for _ in range(count)]
    for place in range(count - 1):
        case.joints.append(good_joint(random, place, len(case.movers())))
    case.moving = len(case.movers())
    case.function, case.mode = random.randint(1, 3), random.randint(0, 1)
    case.base = unit(random, 4) + some(random, 15)
    for joint in case.movers():
        slide = joint.kind == PRISMATIC
        case.poses.append((joint.kind, *some(random, 1), ZERO) if slide else (PAIR, *unit(random, 2)))
    case.speeds, case.accelerations = some(random, case.moving), some(random, case.moving)
    case.loads = [(random.randrange(count), some(random, 6)) for _ in range(random.choice((0, 1, 4, 20)))]
    if random.random() < 0.03:
        case.loads += [(0, [LARGEST] * 6)] * 2
    return records.write(case)


def places(data):
    """The places of the counts and heads of both records, as the first record tells them."""
    call = 4 + int.from_bytes(data[:4], "big")
    return [0, 2, 4, 6, 8, call, call + 2, call + 4, call + 6, call + 160, call + 162]


def put(data, at, part):
    """The data with a part over what stood at a place; what lies outside is left out."""
    return (data[:at] + part + data[at + len(part) :])[: len(data)] if at < len(data) else data


def flip(random, data):
    """A few bits turned."""
    found = bytearray(data)
    for _ in range(random.randint(1, 6) if found else 0):
        found[random.randrange(len(found))] ^= 1 << random.randrange(8)
    return bytes(found)


def count(random, data):
    """A count or a head field set to a number near a limit."""
    return put(data, random.choice(places(data)), random.choice(COUNTS).to_bytes(2, "big"))


def pattern(random, data):
    """A few floats replaced: in step with the links' floats, with the last load's, or anywhere."""
    for _ in range(random.randint(1, 4)):
        step = 8 * random.randrange(len(data) // 8 + 1)
        at = random.choice((10 + step, len(data) - step, random.randrange(len(data) + 1)))
        data = put(data, at, random.choice(PATTERNS).to_bytes(8, "big"))
    return data


def cut(random, data):
    """A front part."""
    return data[: random.randrange(len(data) + 1)]


def longer(random, data):
    """Noise at the end."""
    return data + random.randbytes(random.choice((1, 2, 8, 50, 300)))


def moved(random, data):
    """A stretch of the data put in, or left out, elsewhere."""
    at, size, to = random.randrange(len(data) + 1), random.choice((1, 8, 17, 50, 85, 104)), random.randrange(len(data) + 1)
    return data[:to] + data[at : at + size] + data[to + random.choice((0, size)) :]


def same(random, data):
    """The data as it is."""
    return data


def noise(random, data):
    """Plain noise, with or without a good head."""
    found = random.randbytes(random.choice((0, 1, 5, 6, 10, 100, 1000, random.randrange(30000))))
    return put(found, 0, data[: random.choice((0, 6, 10))])


CHANGES = (same, flip, flip, count, pattern, pattern, cut, longer, moved, noise)


def inputs(random, total):
    """So many inputs."""
    samples = [records.write(readtext.read(path.read_bytes())) for path in sorted(SAMPLES.glob("*.json"))]
    for _ in range(total):
        data = random.choice(samples) if random.random() < 0.3 else good_case(random)
        for _ in range(random.choice((1, 1, 1, 2, 3))):
            data = random.choice(CHANGES)(random, data)
        yield data


def split(stream):
    """The byte strings of a framed stream."""
    found, at = [], 0
    while at < len(stream):
        size = int.from_bytes(stream[at : at + 4], "big")
        if at + 4 + size > len(stream):
            raise program.ProgramError("the last frame is not whole")
        found.append(stream[at + 4 : at + 4 + size])
        at += 4 + size
    return found


def judge(data, answer):
    """The answer's number, and what is wrong with it or None."""
    try:
        number, figures = records.read_answer(answer)
    except records.RecordError as error:
        return None, str(error)
    try:
        case = records.read(data)
    except records.RecordError as error:
        return number, None if number == 9 else f"the number is {number}, and the layout is broken at {error}"
    if number == 9:
        return number, "the number is 9, and the layout is kept"
    if number == 0 and len(figures) != case.moving + 6 * case.mode:
        return number, f"{len(figures)} figures, not {case.moving + 6 * case.mode}"
    if not all(map(is_finite, figures)):
        return number, "a figure is not finite"
    return number, None


def batches(random, total):
    """The inputs, some hundreds at a time."""
    source = inputs(random, total)
    while total > 0:
        yield [next(source) for _ in range(min(BATCH, total))]
        total -= BATCH


def run(options):
    """Tries all inputs; the exit code."""
    words, tally, done = program.command(options.program), Counter(), 0
    for batch in batches(Random(options.seed), options.count):
        stream = b"".join(len(data).to_bytes(4, "big") + data for data in batch)
        answers = split(program.output_of(words, stream))
        if len(answers) != len(batch):
            raise program.ProgramError(f"{len(answers)} answers to {len(batch)} inputs, after input {done}")
        for data, answer in zip(batch, answers):
            number, fault = judge(data, answer)
            if fault:
                print(f"input {done} of seed {options.seed}: {fault}\ninput:  {data.hex()}\nanswer: {answer.hex()}")
                return 1
            tally[number], done = tally[number] + 1, done + 1
    numbers = ", ".join(f"{tally[number]} of number {number}" for number in sorted(tally))
    print(f"{done} inputs, each with one well-formed answer: {numbers}")
    return 0


def main():
    """Reads the options and runs."""
    parser = argparse.ArgumentParser(description="Raw bytes through a framed batch program.")
    parser.add_argument("--program", required=True, metavar="COMMAND", help="the program and its words")
    parser.add_argument("--count", type=int, default=1000)
    parser.add_argument("--seed", type=int, default=1)
    try:
        return run(parser.parse_args())
    except program.ProgramError as error:
        print(f"fuzz: {error}", file=sys.stderr)
        return 3


if __name__ == "__main__":
    sys.exit(main())
