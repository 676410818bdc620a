#!/usr/bin/env python3
"""Tests of the mechanic's command."""

import sys

sys.dont_write_bytecode = True

import json
import math
import os
import struct
import subprocess
import tempfile
import unittest
from pathlib import Path
from random import Random
from unittest import mock

import fuzz
from deckhand import drawing, floats, jsontext, program, readtext, records, refusals, table, writetext
from deckhand.fields import Field

HERE = Path(__file__).resolve().parent
SAMPLES = sorted((HERE / "samples").glob("*.json"))
EDGES = [
    0, 1 << 63, 1, (1 << 63) | 1, 0x000FFFFFFFFFFFFF, 0x0010000000000000, 0x3FF0000000000000, 0x3FF0000000000001,
    0x3FB999999999999A, 0x4340000000000001, 0x7FEFFFFFFFFFFFFF, 0xFFEFFFFFFFFFFFFF, 0x7FF0000000000000, 0xFFF0000000000000,
    0x7FF8000000000000, 0xFFF8000000000000, 0x7FF0000000000001, 0x7FF8000000000001, 0xFFFFFFFFFFFFFFFF,
]
MANY = EDGES + [Random(7).getrandbits(64) for _ in range(2000)]

# W1: a root and one link of mass 2 at (1, 0, 0), turning about y.
W1 = """{
  "links": [
    {"name": "root", "mass": 0, "centre": [0, 0, 0], "inertia": [0, 0, 0]},
    {"name": "arm", "mass": 2, "centre": [1, 0, 0], "inertia": [[0, 0, 0], [0, 0, 0], [0, 0, 0]]}
  ],
  "joints": [
    {"name": "hinge", "kind": "revolute", "parent": "root",
     "axis": [0, 1, 0]}
  ],
  "call": {
    "function": "gravity",
    "mode": "fixed",
    "positions": {"hinge": 0},
    "loads": []
  }
}
"""
SLIDE = W1.replace('"revolute"', '"prismatic"').replace('"axis": [0, 1, 0]', '"axis": [0, 0, 1]')
G = 2 * 9.80665
BIG = 1.7976931348623157e308


def found_program():
    """The command of the program, or None."""
    try:
        return program.command()
    except program.ProgramError:
        return None


PROGRAM = found_program()
needs_program = unittest.skipUnless(PROGRAM, "no program found: set FIGURES to run this test")


def read(text):
    """The case of a text."""
    return readtext.read(text.encode())


def edited(text, old, new):
    """The text with one part replaced, which must be there."""
    assert old in text, old
    return text.replace(old, new, 1)


def through(bits, hexadecimal):
    """A pattern after one way through the text."""
    return Field(jsontext.read(floats.to_json(bits, hexadecimal).encode())).float()


def float_of(text):
    """The pattern of a JSON value."""
    return Field(jsontext.read(text.encode())).float()


class Floats(unittest.TestCase):
    """Floats and their text."""

    def test_round_trip(self):
        """Every pattern comes back with the same bits."""
        for hexadecimal in (False, True):
            for bits in MANY:
                self.assertEqual(through(bits, hexadecimal), bits, f"{bits:016x}")

    def test_known_texts(self):
        """Texts with known patterns."""
        known = {
            "-0": 1 << 63, "-0.0": 1 << 63, "0": 0, "5e-324": 1, '"0x1p-1074"': 1, '"-0x0p0"': 1 << 63,
            '"0x1.8p+1"': 0x4008000000000000, '"-0X1.8P1"': 0xC008000000000000,
            '"inf"': 0x7FF << 52, '"-inf"': 0xFFF << 52, '"nan"': 0x7FF8 << 48, '"nan:fff0000000000001"': 0xFFF0000000000001,
            "0.1": 0x3FB999999999999A, "9007199254740993": 0x4340000000000000,
            '"0x1.fffffffffffffp1023"': 0x7FEFFFFFFFFFFFFF,
        }
        for text, bits in known.items():
            self.assertEqual(float_of(text), bits, text)

    def test_refused_texts(self):
        """Texts that are no double."""
        words = ("0x1p1024", "0x1p-1075", "0x1.00000000000008p0", "nan:7ff0000000000000", "nan:1", "1.5", "")
        for text in ("1e309", "true", "[1]", *map(json.dumps, words)):
            with self.assertRaises(jsontext.TextError, msg=text):
                float_of(text)

    def test_half_angle(self):
        """The pair is that of the C library; no pair comes of an infinite angle."""
        pair = [floats.bits_of(math.sin(0.625)), floats.bits_of(math.cos(0.625))]
        self.assertEqual(floats.half_angle(floats.bits_of(1.25)), pair)
        self.assertEqual(floats.half_angle(0x7FF << 52), [floats.PLAIN_NAN] * 2)


class Records(unittest.TestCase):
    """Text to records and back."""

    def test_known_bytes(self):
        """W1's records, packed by hand."""
        text = edited(edited(W1, '"hinge": 0', '"hinge": [0.5, -0.0]'), '"inertia": [0, 0, 0]', '"inertia": [7, 8, 9]')
        text = edited(text, "[]", '[{"link": "arm", "torque": [1, 2, 3], "force": [4, 5, 6]}]')
        links = [0.0] * 4 + [7.0, 0, 0, 0, 8, 0, 0, 0, 9] + [2.0, 1.0] + [0.0] * 11
        joint = [1.0, 0, 0, 0, 0, 0, 0, 0, 1.0, 0]
        model = struct.pack(">IBBHH26dBHH10d", 6 + 208 + 85, 1, 1, 2, 1, *links, 1, 0, 0, *joint)
        base = [1.0] + [0.0] * 18
        call = struct.pack(">IBBBB19dHH", 160 + 33 + 50, 1, 2, 2, 0, *base, 1, 1)
        lists = struct.pack(">B2d2dH6d", 1, 0.5, -0.0, 0, 0, 1, 1, 2, 3, 4, 5, 6)
        self.assertEqual(records.write(read(text)), model + call + lists)

    def test_base_and_kinds(self):
        """Base floats, function, mode, rotations and a distance stand where they belong."""
        frame = '"rotation": {"axis": [0, 0.5, 1], "pair": [0.25, 2]}, "translation": [1, 2, 3]'
        motion = '"velocity": {"linear": [4, 5, 6]}, "acceleration": {"angular": [7, 8, 9]}'
        text = edited(SLIDE, '"mode": "fixed",', f'"mode": "floating", "base": {{{frame}, {motion}}},')
        case = read(edited(text, '"gravity"', '"velocity product"'))
        values = [floats.value_of(bits) for bits in case.base]
        self.assertEqual(values, [2, 0, 0.125, 0.25, 1, 2, 3, 0, 0, 0, 4, 5, 6, 7, 8, 9, 0, 0, 0])
        self.assertEqual((case.function, case.mode, case.poses), (3, 1, [(2, 0, 0)]))

    def test_samples_there_and_back(self):
        """Text, records, text, records: the same bytes."""
        self.assertGreaterEqual(len(SAMPLES), 4)
        for path in SAMPLES:
            data = records.write(readtext.read(path.read_bytes()))
            for hexadecimal in (False, True):
                text = writetext.write(records.read(data), hexadecimal)
                self.assertEqual(records.write(read(text)), data, path.name)

    def test_readme_example(self):
        """The example of the README is a text with one figure to ask for."""
        lines = (HERE / "README.md").read_text().splitlines()
        start = lines.index("    {")
        case = read("\n".join(lines[start : lines.index("    }", start) + 1]))
        self.assertEqual((len(case.links), case.moving, case.loads[0][0]), (2, 1, 1))

    def test_any_laid_out_records(self):
        """Records that keep their layout, bad models among them, come back from the text with the same bytes."""
        tried, lists = 0, 0
        for data in fuzz.inputs(Random(3), 300):
            try:
                case = records.read(data)
            except records.RecordError:
                continue
            tried, lists = tried + 1, lists + (case.by_number() is None)
            self.assertEqual(records.write(read(writetext.write(case))), data)
        self.assertGreater(tried, 60)
        self.assertGreater(lists, 0)

    def test_odd_cases(self):
        """A distance for a hinge, a count unlike the joints', and names of no link come back."""
        odd = (
            edited(W1, '"hinge": 0', '"hinge": {"distance": 0.5}'),
            edited(W1, '{"hinge": 0}', '[[0, 1], {"distance": 2}]').replace('"joints"', '"moving": 2, "joints"'),
            edited(edited(W1, '"parent": "root"', '"parent": 9'), "[]", '[{"link": 7}]'),
        )
        for text in odd:
            data = records.write(read(text))
            self.assertEqual(records.write(read(writetext.write(records.read(data)))), data)

    def test_limits(self):
        """Counts past their limits fit no layout, though all else agrees."""
        case = read(W1)
        case.loads = [(0, [0] * 6)] * 257
        many_loads = records.write(case)
        case = read(edited(W1, '{"hinge": 0}', str([[0, 1]] * 64)).replace('"joints"', '"moving": 64, "joints"'))
        many_moving = records.write(case)
        case = read(W1)
        case.links, case.joints = case.links[:1] * 65, case.joints * 64
        for data in (many_loads, many_moving, records.write(case)):
            with self.assertRaisesRegex(records.RecordError, "at most|1 to 64"):
                records.read(data)
        with self.assertRaisesRegex(records.RecordError, "at most 69"):
            records.read_answer(struct.pack(">IBBBH70d", 5 + 560, 1, 3, 0, 70, *[0.0] * 70))

    def test_numbers(self):
        """Joint numbers follow the moving joints, or are those given; tables by name follow the numbers."""
        text = (HERE / "samples" / "yesterday.json").read_text()
        case = read(text)
        self.assertEqual([joint.number for joint in case.joints], [0, 1, 2, 65535, 3, 4])
        for number, name in ((4, "shoulder"), (3, "elbow"), (2, "wrist_roll"), (1, "davit_swing"), (0, "davit_slide")):
            text = edited(text, f'"name": "{name}",', f'"name": "{name}", "number": {number},')
        turned = read(text)
        self.assertEqual([joint.number for joint in turned.joints], [4, 3, 2, 65535, 1, 0])
        self.assertEqual(turned.speeds, case.speeds[::-1])
        self.assertEqual(turned.poses, case.poses[::-1])

    def test_broken_records(self):
        """Each broken field is refused; so is every front part."""
        data = records.write(read(W1))
        call = 4 + 6 + 208 + 85
        changes = {3: 0, 4: 2, 5: 2, 7: 1, 9: 64, 218: 3}
        later = {3: 0, 4: 2, 5: 3, 6: 4, 7: 2, 161: 2, 162: 2, 164: 3}
        changes.update({call + at: value for at, value in later.items()})
        for at, value in changes.items():
            with self.assertRaises(records.RecordError, msg=str(at)):
                records.read(data[:at] + bytes([value]) + data[at + 1 :])
        for size in range(len(data)):
            with self.assertRaises(records.RecordError):
                records.read(data[:size])
        with self.assertRaises(records.RecordError):
            records.read(data + b"\0")


# What is changed in W1, and the line, the field and a part of the complaint.
BAD = [
    ('"mode": "fixed",', '"mode": "fixed"', 13, "", "comma"),
    ('"joints": [', '"joints": [,', 6, "", "a value is missing"),
    ('"gravity"', '"gravity', 11, "", "not JSON"),
    ('"mass": 2', '"mass": 02', 4, "", "comma"),
    ('"mass": 2', '"mass": NaN', 4, "", "value is missing"),
    ('"mass": 2', '"mass": 2, "mass": 3', 4, "", "a second time"),
    ('"mass": 2, ', "", 4, "links[1]", '"mass" is missing'),
    ('"mass": 2', '"mass": "two"', 4, "links[1].mass", "is no float"),
    ('"mass": 2', '"mass": 1e400', 4, "links[1].mass", "too large"),
    ('"mass": 2', '"mas": 2', 4, "links[1].mas", "is no field"),
    ('"centre": [1, 0, 0]', '"centre": [1, 0]', 4, "links[1].centre", "3 floats, not 2"),
    ('"centre": [1, 0, 0]', '"centre": [1, 0, null]', 4, "links[1].centre[2]", "must be a number"),
    ("[[0, 0, 0], [0, 0, 0], [0, 0, 0]]", "[[0, 0, 0], [0, 0], [0, 0, 0]]", 4, "links[1].inertia[1]", "not 2"),
    ('"arm"', '"root"', 4, "links[1].name", "also the name of links[0]"),
    ('"arm"', '"a\\nb"', 4, "links[1].name", "printable"),
    ('"revolute"', '"hinged"', 7, "joints[0].kind", "none of"),
    ('"parent": "root"', '"parent": "rut"', 7, "joints[0].parent", "is no link"),
    ('"parent": "root"', '"parent": 65536', 7, "joints[0].parent", "0 to 65535"),
    ('"parent": "root"', '"parent": "root", "child": "root"', 7, "joints[0].child", "order"),
    ('"parent": "root"', '"parent": "root", "number": 1', 7, "joints[0].number", "0 to 0"),
    ('"axis": [0, 1, 0]', '"axis": 5', 8, "joints[0].axis", "list of 3 floats"),
    (',\n     "axis": [0, 1, 0]', "", 7, "joints[0]", '"axis" is missing'),
    ('"axis"', '"origin": {"rotation": {"axis": [1, 0, 0]}}, "axis"', 8, "joints[0].origin.rotation", "either"),
    ('"fixed"', '"afloat"', 12, "call.mode", "none of"),
    ('{"hinge": 0}', "{}", 13, "call.positions", '"hinge" is missing'),
    ('{"hinge": 0}', '{"hinge": 0, "door hinge": 1}', 13, 'call.positions["door hinge"]', "is no joint"),
    ('{"hinge": 0}', "[0, 0]", 13, "call.positions", "1 entries"),
    ('{"hinge": 0}', '{"hinge": {"angle": 0, "distance": 1}}', 13, "call.positions.hinge", "one of"),
    ('"loads": []', '"loads": [{"link": "leg"}]', 14, "call.loads[0].link", "is no link"),
    ("}\n}\n", "}\n}\n}\n", 17, "", "after the end"),
    ('"joints": [', '"joints": [], "moving": [', 6, "joints", "2 links need 1 joints"),
    ('"revolute"', '"fixed"', 13, "call.positions.hinge", "is fixed"),
    ('"joints"', '"moving": 2, "joints"', 6, "moving", "1 joints move"),
]


class BadText(unittest.TestCase):
    """Complaints about a text."""

    def test_line_and_field(self):
        """Each complaint has its line, its field and its reason."""
        for old, new, line, path, part in BAD:
            with self.assertRaises(jsontext.TextError, msg=new) as caught:
                read(edited(W1, old, new))
            error = caught.exception
            self.assertEqual((error.line, error.path), (line, path), new)
            self.assertIn(part, error.message)

    def test_column(self):
        """The column is that of the value; the sentence has all."""
        with self.assertRaises(jsontext.TextError) as caught:
            read(edited(W1, '"fixed"', '"afloat"'))
        self.assertEqual(caught.exception.told("f.json")[:46], "f.json: line 12, column 13: call.mode: \"afloat")

    def test_bytes_and_depth(self):
        """Bytes that are no UTF-8, and a text nested too deeply."""
        with self.assertRaises(jsontext.TextError) as caught:
            readtext.read(b'{\n "links": \xff}')
        self.assertEqual((caught.exception.line, caught.exception.column), (2, 11))
        with self.assertRaises(jsontext.TextError):
            readtext.read(b"[" * 100000)

    def test_numbers_in_doubt(self):
        """Numbers given to some joints only, twice, or to a fixed joint."""
        text = (HERE / "samples" / "yesterday.json").read_text()
        one = edited(text, '"name": "elbow",', '"name": "elbow", "number": 1,')
        fixed = edited(text, '"name": "gripper_flange",', '"name": "gripper_flange", "number": 1,')
        twice = text
        for number, name in ((0, "shoulder"), (1, "elbow"), (1, "wrist_roll"), (3, "davit_swing"), (4, "davit_slide")):
            twice = edited(twice, f'"name": "{name}",', f'"name": "{name}", "number": {number},')
        stray = edited(W1, '{"hinge": 0}', "[0, 0]").replace('"joints"', '"moving": 2, "joints"')
        places = ((one, "joints[0]"), (fixed, "joints[3].number"), (twice, "joints[2].number"), (stray, "call.positions[1]"))
        for changed, path in places:
            with self.assertRaises(jsontext.TextError) as caught:
                read(changed)
            self.assertEqual(caught.exception.path, path)


LOAD = '"loads": [{"link": "arm", "force": [1, 2, 3]}, {"link": "arm", "force": [%s, 0, 0]}]'
# What is changed in W1, the refusal number, its field and its line.
REFUSED = [
    ('"mass": 2', '"mass": -2', 1, "links[1].mass", 4),
    ('"centre": [1, 0, 0]', '"centre": [1e308, 0, 0]', 1, "links[1].centre", 4),
    ("[[0, 0, 0], [0, 0, 0], [0, 0, 0]]", '[[0, 0, 0], [0, "inf", 0], [0, 0, 0]]', 1, "links[1].inertia", 4),
    ('"axis": [0, 1, 0]', '"axis": [0, 1, 1]', 1, "joints[0].axis", 8),
    ('"axis": [0, 1, 0]', '"axis": [0, "nan", 0]', 1, "joints[0].axis", 8),
    ('"axis": [0, 1, 0]', '"origin": {"rotation": [1, 1, 0, 0]}, "axis": [0, 1, 0]', 1, "joints[0].origin.rotation", 8),
    ('"parent": "root"', '"parent": "arm"', 1, "joints[0].parent", 7),
    ('"loads": []', '"base": {"rotation": [2, 0, 0, 0]}', 2, "call.base.rotation", 14),
    ('"loads": []', '"base": {"velocity": {"linear": [0, "nan", 0]}}', 2, "call.base.velocity.linear", 14),
    ('"hinge": 0', '"hinge": [1, 0.1]', 4, "call.positions.hinge", 13),
    ('"hinge": 0', '"hinge": {"distance": 1}', 4, "call.positions.hinge", 13),
    ('"hinge": 0', '"hinge": "inf"', 5, "call.positions.hinge", 13),
    ('"loads": []', LOAD % '"nan"', 5, "call.loads[1].force", 14),
    ('"loads": []', '"loads": [{"link": 2}]', 6, "call.loads[0].link", 14),
    ('"loads": []', LOAD.replace("[1,", f"[{BIG},") % BIG, 7, "call.loads[1].force", 14),
    ('"loads": []', '"loads": [' + ", ".join(['{"link": "arm"}'] * 257) + "]", 9, "call.loads", 14),
]


class Refusals(unittest.TestCase):
    """Refusal numbers and the entries that they are about."""

    def test_entries(self):
        """The entry is found for each number."""
        for old, new, number, path, line in REFUSED:
            found = refusals.entry(read(edited(W1, old, new)), number)
            self.assertIsNotNone(found, new[:60])
            self.assertEqual((found["field"], found["line"]), (path, line), new[:60])

    def test_nothing_wrong(self):
        """A good case has no such entry, whatever the number."""
        for path in SAMPLES:
            if path.name != "refused.json":
                case = readtext.read(path.read_bytes())
                self.assertEqual([refusals.entry(case, number) for number in range(1, 10)], [None] * 9, path.name)

    def test_unused_lists(self):
        """What the function does not take is not looked at."""
        text = edited(W1, '"loads": []', '"speeds": {"hinge": "nan"}, "accelerations": {"hinge": "inf"}, ' + LOAD % '"inf"')
        for name, path in (("gravity", "call.loads[1].force"), ("velocity product", "call.speeds.hinge")):
            self.assertEqual(refusals.entry(read(text.replace("gravity", name)), 5)["field"], path)
        text = edited(W1, '"loads": []', LOAD % '"inf"').replace("gravity", "velocity product")
        self.assertIsNone(refusals.entry(read(text), 5))

    def test_joint_numbers(self):
        """Numbers past the last, and a count unlike the joints'."""
        listed = edited(W1, '{"hinge": 0}', "[[0, 1]]")
        found = refusals.entry(read(edited(listed, '"revolute"', '"revolute", "number": 1')), 1)
        self.assertEqual((found["field"], found["line"]), ("joints[0].number", 7))
        listed = edited(W1, '{"hinge": 0}', "[]").replace('"joints"', '"moving": 0, "joints"')
        self.assertIn("moving", [path for path, _ in refusals.model_faults(read(listed))])

    def test_unit_limits(self):
        """01's limits: s=1, c=2^-20 passes; s=1, c=2^-19 does not."""
        for power, passes in ((-20, True), (-19, False)):
            self.assertEqual(refusals.unit([floats.ONE, floats.bits_of(2.0**power)]), passes)

    @needs_program
    def test_the_program_agrees(self):
        """The program gives these numbers."""
        for old, new, number, _, _ in REFUSED:
            self.assertEqual(program.answer(read(edited(W1, old, new)), PROGRAM), (number, []), new[:60])


def result(text, figures, number=0, file="f.json"):
    """A result with given figures."""
    return table.Result(file, read(text), number, [floats.bits_of(value) for value in figures])


class Tables(unittest.TestCase):
    """Tables for people and machines."""

    def test_one(self):
        """A table of one figure."""
        lines = ["f.json: gravity, fixed", "joint  number  kind       figure  unit", "hinge       0  revolute  -19.625  N m"]
        self.assertEqual(table.table(result(W1, [-19.625])).splitlines(), lines)
        self.assertTrue(table.table(result(SLIDE, [2.5])).endswith("prismatic     2.5  N"))

    def test_floating(self):
        """Six root figures first."""
        text = edited(W1, '"fixed"', '"floating"')
        rows = result(text, [1, 2, 3, 4, 5, 6, 7]).rows
        names = [f"root {half} {part}" for half in ("torque", "force") for part in "xyz"]
        self.assertEqual([row["name"] for row in rows], names + ["hinge"])
        self.assertEqual([row["unit"] for row in rows], ["N m"] * 3 + ["N"] * 3 + ["N m"])
        self.assertEqual([floats.value_of(row["bits"]) for row in rows], [1, 2, 3, 4, 5, 6, 7])

    def test_refused(self):
        """The number, its meaning and the entry."""
        text = table.table(result(edited(W1, '"hinge": 0', '"hinge": [1, 1]'), [], 4))
        self.assertIn("refused 4: a finite pose entry is of the wrong kind or fails the unit test", text)
        self.assertIn("call.positions.hinge, line 13: fails the unit test", text)

    def test_comparison(self):
        """Equal bits are the same; other zeros, other units and rows of one side are not."""
        last = {
            "same": (result(W1, [0.1]), result(W1, [0.1])),
            "DIFFERS": (result(W1, [0.0]), result(W1, [-0.0])),
            "only A": (result(W1, [1]), result(W1, [], 8)),
            "only B": (result(W1, [], 8), result(W1, [1])),
        }
        for word, (one, other) in last.items():
            self.assertTrue(table.comparison(one, other).endswith("  " + word), word)
            self.assertEqual(table.machine_comparison(one, other)["figures"][0]["same"], word == "same")
        other = table.comparison(result(W1, [1]), result(SLIDE, [1]))
        self.assertTrue(other.endswith("revolute / prismatic  1.0  1.0  N m / N  DIFFERS"))

    def test_machine(self):
        """The figure with its bits."""
        row = table.machine(result(W1, [-0.0]))["figures"][0]
        self.assertEqual((row["bits"], row["hex"]), ("8000000000000000", "-0x0.0p+0"))
        self.assertEqual((str(row["figure"]), row["number"], row["unit"]), ("-0.0", 0, "N m"))


class Drawing(unittest.TestCase):
    """The arm as a picture in text."""

    def test_sample(self):
        """Branches, kinds, numbers and loads."""
        case = readtext.read((HERE / "samples" / "today.json").read_bytes())
        lines = drawing.drawing(case).splitlines()
        self.assertEqual(lines[0], "rail")
        self.assertEqual(lines[2], "|  `- elbow (revolute 1) -- forearm")
        self.assertEqual(lines[5], "`- davit_swing (revolute 3) -- davit")
        self.assertEqual(lines[7], "      `- hose_hook (fixed) -- hose  <- 1 load")

    def test_loads(self):
        """Several loads on the root."""
        case = readtext.read((HERE / "samples" / "yesterday.json").read_bytes())
        case.loads = [(0, []), (0, [])]
        self.assertEqual(drawing.drawing(case).splitlines()[0], "rail  <- 2 loads")

    def test_bad_parent(self):
        """A joint whose parent is no earlier link is left out, and the drawing ends."""
        case = readtext.read((HERE / "samples" / "yesterday.json").read_bytes())
        case.joints[0].parent = 1
        self.assertNotIn("shoulder", drawing.drawing(case))


class Commands(unittest.TestCase):
    """The command itself, with a stand-in program that writes given bytes."""

    def setUp(self):
        """A folder with W1 and an empty bad text."""
        folder = tempfile.TemporaryDirectory()
        self.addCleanup(folder.cleanup)
        self.folder = Path(folder.name)
        (self.folder / "w1.json").write_text(W1)
        (self.folder / "bad.json").write_text(edited(W1, '"fixed"', '"afloat"'))

    def stand_in(self, answer, code=0):
        """A program that writes these bytes, whatever it reads."""
        path = self.folder / "stand-in"
        lines = ("import sys", "sys.stdin.buffer.read()", f"sys.stdout.buffer.write({answer!r})", f"sys.exit({code})")
        path.write_text("\n".join((f"#!{sys.executable}", *lines, "")))
        path.chmod(0o755)
        return str(path)

    def deck(self, *words, **environment):
        """Runs the command in the folder: exit code, output, complaints."""
        kept = {key: value for key, value in os.environ.items() if key not in ("FIGURES", "RUNNER")}
        command = [HERE / "deck", *words]
        done = subprocess.run(command, cwd=self.folder, env={**kept, **environment}, capture_output=True, check=False)
        return done.returncode, done.stdout, done.stderr.decode()

    def test_exit_codes(self):
        """0 accepted, 1 refused, 2 bad text, 3 no answer."""
        good, refused = struct.pack(">IBBBHd", 13, 1, 3, 0, 1, 2.5), bytes.fromhex("000000050103080000")
        code, out, _ = self.deck("w1.json", "--program", self.stand_in(good))
        self.assertEqual((code, out.split()[-3:]), (0, [b"2.5", b"N", b"m"]))
        code, out, _ = self.deck("w1.json", FIGURES=self.stand_in(refused))
        self.assertEqual((code, b"refused 8: a result is not finite" in out), (1, True))
        code, out, said = self.deck("bad.json", FIGURES=self.stand_in(good))
        self.assertEqual((code, out), (2, b""))
        self.assertIn("bad.json: line 12, column 13: call.mode", said)
        short, infinite = struct.pack(">IBBBH", 5, 1, 3, 0, 0), struct.pack(">IBBBHd", 13, 1, 3, 0, 1, math.inf)
        for answer, ends in ((good + b"x", 0), (good[:-1], 0), (b"", 0), (good, 1), (short, 0), (infinite, 0)):
            self.assertEqual(self.deck("w1.json", FIGURES=self.stand_in(answer, ends))[:2], (3, b""), answer)
        self.assertEqual(self.deck("w1.json", FIGURES="nowhere/figures")[:2], (3, b""))
        numbered = edited(edited(W1, '{"hinge": 0}', "[[0, 1]]"), '"revolute"', '"revolute", "number": 1')
        (self.folder / "numbered.json").write_text(numbered)
        code, out, said = self.deck("numbered.json", FIGURES=self.stand_in(good))
        self.assertEqual((code, out, "accepted a model" in said), (3, b"", True))

    def test_records_and_text(self):
        """to-records and to-text undo each other; a bad text writes nothing."""
        self.assertEqual(self.deck("to-records", "w1.json", "-o", "w1.bin")[0], 0)
        self.assertEqual((self.folder / "w1.bin").read_bytes(), records.write(read(W1)))
        code, text, _ = self.deck("to-text", "w1.bin", "--hex")
        self.assertEqual((code, records.write(readtext.read(text))), (0, records.write(read(W1))))
        self.assertIn(b'"link1"', text)
        self.assertEqual(self.deck("to-records", "bad.json", "-o", "bad.bin")[:2], (2, b""))
        self.assertFalse((self.folder / "bad.bin").exists())
        (self.folder / "cut.bin").write_bytes(records.write(read(W1))[:-1])
        code, out, said = self.deck("to-text", "cut.bin")
        self.assertEqual((code, out, "the record ends too early" in said), (2, b"", True))

    def test_usage(self):
        """Wrong words are refused with 2."""
        wrong = ("", "w1.json w1.json", "compare w1.json", "w1.json -o x", "to-text w1.json --json", "none.json")
        for words in wrong:
            self.assertEqual(self.deck(*words.split())[:2], (2, b""), words)

    def test_which_program(self):
        """The option goes before FIGURES; RUNNER is for machines of another kind alone."""
        path = self.stand_in(b"")
        for machine, words in (("x86_64", [path]), ("aarch64", ["qemu", "-L", "x", path])):
            with mock.patch.dict(os.environ, {"FIGURES": "nowhere", "RUNNER": "qemu -L x"}):
                with mock.patch("platform.machine", return_value=machine):
                    self.assertEqual(program.command(path), words)
                    self.assertEqual(program.command(path + " answer"), words + ["answer"])
        self.assertEqual(program.USUAL, HERE.parent / "crates" / "figures" / "out" / "figures")

    def test_emulator(self):
        """Without RUNNER nothing goes before a program, built for this machine or for another."""
        built = self.folder / "built"
        built.write_bytes(b"\x7fELF" + bytes(14) + b"\x3e\0")
        built.chmod(0o755)
        script = self.stand_in(b"")
        with mock.patch.dict(os.environ, {"RUNNER": ""}):
            for machine in ("aarch64", "riscv64", "x86_64"):
                with mock.patch("platform.machine", return_value=machine):
                    self.assertEqual([program.command(path) for path in (str(built), script)], [[str(built)], [script]])


class Samples(unittest.TestCase):
    """The samples and 01's worked table through the program."""

    def figures(self, text):
        """The figures of a text; it must be accepted."""
        number, bits = program.answer(read(text), PROGRAM)
        self.assertEqual(number, 0)
        return [floats.value_of(one) for one in bits]

    def shown(self, command, *names):
        """The exit code and the answer for machines."""
        files = [HERE / "samples" / name for name in names]
        done = subprocess.run([HERE / "deck", "--json", *command, *files], capture_output=True, check=False)
        return done.returncode, json.loads(done.stdout)

    @needs_program
    def test_worked_table(self):
        """W1, W2, W3 and W4."""
        self.assertEqual(self.figures(W1), [-G])
        self.assertEqual(self.figures(edited(W1, "[]", '[{"link": "arm", "torque": [0, 10, 0]}]')), [10 - G])
        turning = edited(edited(W1, '"gravity"', '"velocity product"'), '"loads": []', '"speeds": {"hinge": 5}')
        self.assertEqual(self.figures(turning), [0])
        self.assertEqual(self.figures(SLIDE), [G])

    @needs_program
    def test_elbow(self):
        """The hose changes the davit's branch and no bit of the boom's."""
        code, found = self.shown(["compare"], "yesterday.json", "today.json")
        same = {row["name"]: row["same"] for row in found["figures"]}
        boom = {"shoulder": True, "elbow": True, "wrist_roll": True}
        self.assertEqual((code, same), (0, {**boom, "davit_swing": False, "davit_slide": False}))

    @needs_program
    def test_others(self):
        """The floating call has eleven figures; the refused one names its load."""
        code, found = self.shown([], "at-sea.json")
        self.assertEqual((code, len(found["figures"])), (0, 11))
        code, found = self.shown([], "refused.json")
        self.assertEqual((code, found["refusal"], found["entry"]["field"]), (1, 5, "call.loads[0].force"))


class Fuzz(unittest.TestCase):
    """The judge of raw bytes."""

    def test_judge(self):
        """Right answers pass, wrong ones do not."""
        data, good = records.write(read(W1)), struct.pack(">IBBBHd", 13, 1, 3, 0, 1, 2.5)
        refusal = lambda number: struct.pack(">IBBBH", 5, 1, 3, number, 0)
        for given, answer in ((data, good), (data, refusal(8)), (b"", refusal(9)), (data[:-1], refusal(9))):
            self.assertIsNone(fuzz.judge(given, answer)[1])
        many = struct.pack(">IBBBH70d", 5 + 560, 1, 3, 0, 70, *[0.0] * 70)
        wrong = [refusal(9), refusal(10), refusal(0), b"", good[:-1], good + b"\0", good[:6] + b"\5" + good[7:], many]
        wrong.append(struct.pack(">IBBBHd", 13, 1, 3, 0, 1, math.nan))
        wrong += [good[:4] + b"\2" + good[5:], good[:5] + b"\2" + good[6:], good[:3] + b"\5" + good[4:]]
        for answer in wrong:
            self.assertIsNotNone(fuzz.judge(data, answer)[1], answer.hex())
        self.assertIsNotNone(fuzz.judge(b"", refusal(1))[1])

    def test_inputs(self):
        """The same seed gives the same inputs, readable and broken ones."""
        first, second = (list(fuzz.inputs(Random(5), 60)) for _ in range(2))
        self.assertEqual(first, second)
        broken = [fuzz.judge(data, struct.pack(">IBBBH", 5, 1, 3, 9, 0))[1] is None for data in first]
        self.assertEqual(set(broken), {True, False})


if __name__ == "__main__":
    unittest.main()
