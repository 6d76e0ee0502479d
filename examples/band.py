"""Bands an arch and judges two points, by the installed shared library: python3 band.py PREFIX/lib/libcontour.so"""
import ctypes
import sys
from ctypes import c_int32, c_size_t, c_uint32, c_uint64


class Answer(ctypes.Structure):
    _fields_ = [("refusal", c_uint32), ("spot", c_uint64), ("curves", c_uint64), ("leaves", c_uint64), ("nodes", c_uint64)]


class Judgement(ctypes.Structure):
    _fields_ = [("refusal", c_uint32), ("spot", c_uint64), ("on", c_uint32), ("leaf", c_uint64), ("cover", c_uint64)]


engine = ctypes.CDLL(sys.argv[1])
numbers = ctypes.POINTER(c_int32)
engine.contour_band.argtypes = [numbers, c_size_t, c_int32, c_uint32, numbers, c_size_t]
engine.contour_band.restype = Answer
engine.contour_judge.argtypes = [numbers, c_size_t, c_uint32, c_int32, c_int32]
engine.contour_judge.restype = Judgement

outline = (c_int32 * 9)(3, 0, 0, 10, 30, 20, 30, 30, 0)
m, tolerance = 3, 44
# A list of no numbers asks how many leaves there are, by refusal 8; then there is room for just so many.
asked = engine.contour_band(outline, len(outline), tolerance, m, None, 0)
assert asked.refusal == 8, f"refused {asked.refusal} {asked.spot}"
records = (c_int32 * (asked.spot * (6 + 4 * m)))()
band = engine.contour_band(outline, len(outline), tolerance, m, records, len(records))
print("version", engine.contour_version(), "leaves", band.leaves, "record", *records)
for x, y in (240, 363), (240, 364):
    point = engine.contour_judge(records, len(records), m, x, y)
    print((x, y), f"on, record {point.leaf} cover {point.cover}" if point.on else "off")
