"""Document 01's float steps on tuples of Python floats, which are binary64."""

from math import isfinite

ZERO = (0.0, 0.0, 0.0)
LOW = 1.0 - 2.0**-40
HIGH = 1.0 + 2.0**-40


def plus(a, b):
    """The sum of two vectors."""
    return (a[0] + b[0], a[1] + b[1], a[2] + b[2])


def times(s, v):
    """A number times a vector."""
    return (s * v[0], s * v[1], s * v[2])


def cross(a, b):
    """The cross product."""
    ax, ay, az = a
    bx, by, bz = b
    return (ay * bz - az * by, az * bx - ax * bz, ax * by - ay * bx)


def dot(a, b):
    """The dot product, added x, y, z."""
    return a[0] * b[0] + a[1] * b[1] + a[2] * b[2]


def inverse(q):
    """The inverse of a quaternion."""
    return (q[0], -q[1], -q[2], -q[3])


def turn(q, v):
    """A quaternion on a vector."""
    u = q[1:]
    t = times(2.0, cross(u, v))
    return plus(plus(times(q[0], t), cross(u, t)), v)


def product(a, b):
    """The quaternion product."""
    w, i, j, k = a
    w2, i2, j2, k2 = b
    return (
        w * w2 - i * i2 - j * j2 - k * k2,
        w * i2 + i * w2 + j * k2 - k * j2,
        w * j2 - i * k2 + j * w2 + k * i2,
        w * k2 + i * j2 - j * i2 + k * w2,
    )


def matrix(q):
    """The matrix of a quaternion, as three rows."""
    w, i, j, k = q
    ww, ii, jj, kk = w * w, i * i, j * j, k * k
    ij, ik, jk = (i * j) * 2.0, (i * k) * 2.0, (j * k) * 2.0
    wi, wj, wk = (w * i) * 2.0, (w * j) * 2.0, (w * k) * 2.0
    return (
        (ww + ii - jj - kk, ij - wk, wj + ik),
        (wk + ij, ww - ii + jj - kk, jk - wi),
        (ik - wj, wi + jk, ww - ii - jj + kk),
    )


def on(rows, v):
    """A matrix on a vector."""
    return (dot(rows[0], v), dot(rows[1], v), dot(rows[2], v))


def finite(values):
    """Whether all values are finite."""
    return all(map(isfinite, values))


def unit(values):
    """Whether the sum of squares, added left to right, is close enough to 1."""
    total = values[0] * values[0]
    for value in values[1:]:
        total = total + value * value
    return LOW <= total <= HIGH
