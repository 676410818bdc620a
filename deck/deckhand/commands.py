"""The commands: run, compare, draw, to-records and to-text."""

import argparse
import json
import sys
from pathlib import Path

from . import drawing, program, readtext, records, table, writetext
from .jsontext import TextError

ACCEPTED, REFUSED, BAD_INPUT, NO_ANSWER = 0, 1, 2, 3
USAGE = """deck [options] FILE.json
       deck [options] compare A.json B.json
       deck draw FILE.json
       deck to-records FILE.json [-o OUT.bin]
       deck to-text IN.bin [--hex] [-o OUT.json]"""


class InputError(Exception):
    """A file that can't be read, written or understood."""


def load(path):
    """A file's bytes."""
    try:
        return Path(path).read_bytes()
    except OSError as error:
        raise InputError(f"{path}: {error.strerror}") from None


def save(path, data):
    """Writes bytes to a file, or to standard output where none is named."""
    if path is None:
        sys.stdout.buffer.write(data)
        return
    try:
        Path(path).write_bytes(data)
    except OSError as error:
        raise InputError(f"{path}: {error.strerror}") from None


def case_of(path):
    """The case of a text file."""
    try:
        return readtext.read(load(path))
    except TextError as error:
        raise InputError(error.told(path)) from None


def results(files, options):
    """Each file's answer; no program runs before every text is understood."""
    cases = [case_of(file) for file in files]
    words = program.command(options.program)
    return [table.Result(file, case, *program.answer(case, words)) for file, case in zip(files, cases)]


def show(found, people, machines, options):
    """Prints results in the form asked for; the exit code."""
    text = json.dumps(machines(*found), indent=2) if options.json else people(*found)
    print(text)
    return REFUSED if any(result.number for result in found) else ACCEPTED


def run(files, options):
    """The figures of one call."""
    return show(results(files, options), table.table, table.machine, options)


def compare(files, options):
    """The figures of two calls side by side."""
    return show(results(files, options), table.comparison, table.machine_comparison, options)


def draw(files, _):
    """The arm of a text as a tree."""
    print(drawing.drawing(case_of(files[0])))
    return ACCEPTED


def to_records(files, options):
    """A text into its two records."""
    save(options.output, records.write(case_of(files[0])))
    return ACCEPTED


def to_text(files, options):
    """A model record and a call record into a text."""
    try:
        case = records.read(load(files[0]))
    except records.RecordError as error:
        raise InputError(f"{files[0]}: {error}") from None
    save(options.output, writetext.write(case, options.hex).encode())
    return ACCEPTED


COMMANDS = {"compare": (compare, 2), "draw": (draw, 1), "to-records": (to_records, 1), "to-text": (to_text, 1)}
TAKEN = {run: ("program", "json"), compare: ("program", "json"), draw: (), to_records: ("output",), to_text: ("output", "hex")}


def parsed(words):
    """The command, its files and the options."""
    parser = argparse.ArgumentParser(prog="deck", usage=USAGE, description="The figures of one call, for people.")
    parser.add_argument("words", nargs="+", help=argparse.SUPPRESS)
    parser.add_argument("--program", metavar="PATH", help="the program that gives the figures")
    parser.add_argument("--json", action="store_true", help="print the answer as JSON")
    parser.add_argument("--hex", action="store_true", help="to-text: floats as hexadecimal strings")
    parser.add_argument("-o", "--output", metavar="FILE", help="to-records, to-text: the file to write")
    options = parser.parse_intermixed_args(words)
    act, count = COMMANDS.get(options.words[0], (run, 1))
    files = options.words[1:] if options.words[0] in COMMANDS else options.words
    if len(files) != count:
        parser.error(f"{count} file{'s are' if count > 1 else ' is'} needed, {len(files)} given")
    for name in ("program", "json", "hex", "output"):
        if getattr(options, name) and name not in TAKEN[act]:
            parser.error(f"--{name} has no meaning here")
    return act, files, options


def main(words):
    """Runs one command; the exit code."""
    sys.stdout.reconfigure(errors="backslashreplace")
    act, files, options = parsed(words)
    try:
        return act(files, options)
    except InputError as error:
        print(f"deck: {error}", file=sys.stderr)
        return BAD_INPUT
    except program.ProgramError as error:
        print(f"deck: {error}", file=sys.stderr)
        return NO_ANSWER
