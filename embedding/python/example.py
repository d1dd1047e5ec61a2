"""Prints the first pixel of two small frames, and that a wrong length is refused."""
import sws

plan = sws.Plan("yuv444p", "rgb24")
print(plan.convert(b"\x51\x5a\xf0", 1, 1).hex())
print(plan.share().convert(bytes(range(12)), 2, 2).hex()[:6], len(sws.formats()))
try:
    plan.convert(b"\0\0", 1, 1)
except sws.Error as refused:
    print(refused.status, refused)
try:
    import numpy
except ImportError:
    print("numpy is not installed")
else:
    print(plan.convert(numpy.array([[0x51], [0x5A], [0xF0]], dtype=numpy.uint8), 1, 1).tolist())
