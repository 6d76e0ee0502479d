"""What a flattening keeps of what it was told, in fractions, from `peers kept`: the distance of its farthest parameter from the curve's own pieces."""
import struct, sys
from fractions import Fraction as F


def number(bits):
    return F(struct.unpack("<d", struct.pack("<Q", int(bits)))[0])


def at(row, t):
    while len(row) > 1:
        row = [(a[0] + t * (b[0] - a[0]), a[1] + t * (b[1] - a[1])) for a, b in zip(row, row[1:])]
    return row[0]


def squared(p, a, b):
    dx, dy = b[0] - a[0], b[1] - a[1]
    length = dx * dx + dy * dy
    s = F(0) if length == 0 else min(F(1), max(F(0), ((p[0] - a[0]) * dx + (p[1] - a[1]) * dy) / length))
    return (p[0] - a[0] - s * dx) ** 2 + (p[1] - a[1] - s * dy) ** 2


def pairs(numbers):
    return list(zip(numbers[::2], numbers[1::2]))


for line in sys.stdin:
    head, control, pieces = line.split(";")
    who, name, t, over, broken, of, k = head.split()
    p = at(pairs([F(int(n)) for n in control.split()]), F(int(k), 1024))
    points = pairs([number(n) for n in pieces.split()])
    least = min(squared(p, a, b) for a, b in zip(points, points[1:]))
    half = F(int(t), 2)
    kept = "kept there" if least <= half * half else "MORE, exactly"
    print(
        f"{who:8} {name:8} T {t:>3}: told {float(half):6.1f}, farthest found {float(least) ** 0.5:9.4f},"
        f" {float(least) ** 0.5 / float(half):6.3f} of it, {kept}; {broken} of {of} curves have a parameter farther, {over} in all"
    )
