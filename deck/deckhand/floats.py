"""Doubles as 64-bit patterns, and their exact text."""

import json
import math
import re
import struct

ZERO = 0
ONE = 0x3FF0000000000000
PLAIN_NAN = 0x7FF8000000000000
EXPONENT = 0x7FF
HEXADECIMAL = re.compile(r"([+-]?)0x([0-9a-f]+)(?:\.([0-9a-f]*))?(?:p([+-]?[0-9]{1,6}))?", re.IGNORECASE)
NAN_PATTERN = re.compile(r"nan:([0-9a-f]{16})", re.IGNORECASE)


def bits_of(value):
    """The pattern of a Python float."""
    return struct.unpack(">Q", struct.pack(">d", value))[0]


def value_of(bits):
    """The Python float of a pattern."""
    return struct.unpack(">d", struct.pack(">Q", bits))[0]


def is_finite(bits):
    """Whether a pattern is that of a finite double."""
    return (bits >> 52) & EXPONENT != EXPONENT


def is_nan(bits):
    """Whether a pattern is that of a NaN."""
    return not is_finite(bits) and bits & ((1 << 52) - 1) != 0


def from_decimal(text):
    """The pattern of a decimal number, rounded to the nearest double."""
    value = float(text)
    if math.isinf(value):
        raise ValueError('is too large for a double; write "inf" if that is meant')
    return bits_of(value)


def from_hexadecimal(sign, whole, part, power):
    """The pattern of a hexadecimal number, which must be a double exactly."""
    digits = int(whole + part, 16)
    zeros = (digits & -digits).bit_length() - 1 if digits else 0
    odd, low = digits >> zeros, int(power) - 4 * len(part) + zeros
    if odd and odd.bit_length() + low > 1024:
        raise ValueError("is too large for a double")
    if odd.bit_length() > 53 or (odd and low < -1074):
        raise ValueError("is not exactly a double")
    value = math.ldexp(odd, low) if odd else 0.0
    return bits_of(-value if sign == "-" else value)


def from_word(text):
    """The pattern that a string stands for: hexadecimal, an infinity or a NaN."""
    words = {"inf": bits_of(math.inf), "-inf": bits_of(-math.inf), "nan": PLAIN_NAN}
    if text in words:
        return words[text]
    match = NAN_PATTERN.fullmatch(text)
    if match:
        bits = int(match.group(1), 16)
        if not is_nan(bits):
            raise ValueError("is not the pattern of a NaN")
        return bits
    match = HEXADECIMAL.fullmatch(text)
    if match:
        sign, whole, part, power = match.groups()
        return from_hexadecimal(sign, whole, part or "", power or "0")
    raise ValueError('is no float; a string is "0x1.8p+1", "inf", "-inf", "nan" or "nan:" and 16 hexadecimal digits')


def to_word(bits, hexadecimal=False):
    """The text of a pattern, without quotes."""
    if is_nan(bits):
        return "nan" if bits == PLAIN_NAN else f"nan:{bits:016x}"
    value = value_of(bits)
    return value.hex() if hexadecimal and is_finite(bits) else repr(value)


def to_json(bits, hexadecimal=False):
    """The text of a pattern as it stands in a JSON file: a number, or a string in quotes."""
    word = to_word(bits, hexadecimal)
    return word if is_finite(bits) and not hexadecimal else json.dumps(word)


def half_angle(bits):
    """The pair (sin(a/2), cos(a/2)) of an angle by the C library; a pair of NaN where the angle is not finite."""
    if not is_finite(bits):
        return [PLAIN_NAN, PLAIN_NAN]
    half = value_of(bits) / 2
    return [bits_of(math.sin(half)), bits_of(math.cos(half))]


def times(a, b):
    """The pattern of a product."""
    return bits_of(value_of(a) * value_of(b))
