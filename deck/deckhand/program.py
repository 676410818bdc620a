"""The program that gives the figures: where it is, and one run of it."""

import os
import platform
import shlex
import subprocess
from pathlib import Path

from .floats import is_finite
from .records import RecordError, read_answer, write

USUAL = Path(__file__).resolve().parent.parent.parent / "crates" / "figures" / "out" / "figures"
NATIVE = ("x86_64", "amd64")


class ProgramError(Exception):
    """The program is missing, failed, or wrote no answer record."""


def runner():
    """What goes before a program on a machine that is no x86-64: the words of RUNNER."""
    return [] if platform.machine().lower() in NATIVE else shlex.split(os.environ.get("RUNNER", ""))


def command(given=None):
    """The command to run, as words: what was given, else FIGURES, else the usual place."""
    said = given or os.environ.get("FIGURES") or str(USUAL)
    words = [said] if Path(said).exists() else shlex.split(said)
    if not words or not (Path(words[0]).is_file() and os.access(words[0], os.X_OK)):
        raise ProgramError(f"no program at {said}; name one with --program or the environment variable FIGURES")
    if "/" not in words[0]:
        words[0] = "./" + words[0]
    return runner() + words


def output_of(words, data):
    """What a command writes when it reads the data."""
    try:
        done = subprocess.run(words, input=data, stdout=subprocess.PIPE, check=False)
    except OSError as error:
        raise ProgramError(f"{words[0]} can't be run: {error.strerror}") from None
    if done.returncode != 0:
        raise ProgramError(f"{words[0]} ended with {done.returncode}")
    return done.stdout


def answer(case, words):
    """The number and the figures for a case."""
    try:
        number, figures = read_answer(output_of(words, write(case)))
    except RecordError as error:
        raise ProgramError(f"{words[0]} wrote no answer record: {error}") from None
    if number == 0 and case.by_number() is None:
        raise ProgramError(f"{words[0]} accepted a model whose joint numbers are not 0 to m-1, each once")
    count = case.moving + 6 * case.mode
    if number == 0 and len(figures) != count:
        raise ProgramError(f"{words[0]} answered {len(figures)} figures, not {count}")
    if not all(map(is_finite, figures)):
        raise ProgramError(f"{words[0]} answered a figure that is not finite")
    return number, figures
