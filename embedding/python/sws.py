"""Exact conversion between pixel formats, over the shared object that `embedding/build.sh --shared` makes.

    plan = sws.Plan("yuv444p", "rgb24", from_matrix="bt709")
    rgb = plan.convert(yuv, width, height)      # bytes, or what numpy.asarray takes

A frame is raw: its planes one behind the other, rows without padding.
"""
import ctypes
import os

_library = ctypes.CDLL(os.environ.get("SWS_LIBRARY") or os.path.join(os.path.dirname(os.path.abspath(__file__)), "libsws.so"))
_library.sws_text.restype = ctypes.c_char_p
_RANGES = ("full", "limited")


class Error(Exception):
    """A call was refused; `status` is the number of sws.h."""

    def __init__(self, status):
        super().__init__(_library.sws_text(status).decode())
        self.status = status


class _Side(ctypes.Structure):
    _fields_ = [(name, ctypes.c_uint32) for name in ("format", "q", "r", "b", "range")]


class _Conversion(ctypes.Structure):
    _fields_ = [("source", _Side), ("target", _Side), ("dither", ctypes.c_uint32)]


class _Owner(ctypes.Structure):
    _fields_ = [("owner", ctypes.c_void_p)]


def _call(function, *words):
    status = function(*words)
    if status:
        raise Error(status)


def _named(function, name, *out):
    text = name.encode()
    _call(function, text, ctypes.c_size_t(len(text)), *map(ctypes.byref, out))
    return [number.value for number in out]


def find(name):
    """The number of the format of this name."""
    return _named(_library.sws_format_find, name, ctypes.c_uint32())[0]


def formats():
    """The names of all formats."""
    room = (ctypes.c_char * 16)()
    names = []
    for number in range(_library.sws_format_count()):
        _call(_library.sws_format_name, ctypes.c_uint32(number), room, ctypes.c_size_t(16))
        names.append(room.value.decode())
    return names


def length(name, width, rows):
    """The bytes of a raw frame of this format."""
    bytes_ = ctypes.c_uint64()
    _call(_library.sws_frame_bytes, *map(ctypes.c_uint32, (find(name), width, rows)), ctypes.byref(bytes_))
    return bytes_.value


def default_range(name):
    """The range that this format is taken to have where nothing else is said: "full" or "limited"."""
    range_ = ctypes.c_uint32()
    _call(_library.sws_format_range, ctypes.c_uint32(find(name)), ctypes.byref(range_))
    return _RANGES[range_.value]


def _side(name, matrix, range_):
    parts = _named(_library.sws_matrix, matrix, *(ctypes.c_uint32() for _ in range(3)))
    return _Side(find(name), *parts, _RANGES.index(default_range(name) if range_ is None else range_))


class Plan:
    """What is made once for a conversion; a range of None is `default_range`. One call at a time; `share` gives another thread
    a plan of its own."""

    def __init__(self, source, target, from_matrix="bt601", to_matrix="bt601", from_range=None, to_range=None, dither=0):
        self._owner = _Owner()
        self.source, self.target = source, target
        asked = _Conversion(_side(source, from_matrix, from_range), _side(target, to_matrix, to_range), dither)
        _call(_library.sws_plan_open, ctypes.byref(asked), ctypes.byref(self._owner))

    def share(self):
        other = Plan.__new__(Plan)
        other._owner, other.source, other.target = _Owner(), self.source, self.target
        _call(_library.sws_plan_share, self._open(), ctypes.byref(other._owner))
        return other

    def convert(self, frame, width, rows, first=0):
        """The target rows of some rows of a frame: bytes, or an array of bytes where a NumPy array was given."""
        is_array = hasattr(frame, "__array_interface__")
        given = memoryview(frame).cast("B") if not is_array else memoryview(_contiguous(frame)).cast("B")
        source = (ctypes.c_char * max(len(given), 1)).from_buffer_copy(given if len(given) else b"\0")
        target = (ctypes.c_char * length(self.target, width, rows))()
        _call(_library.sws_plan_convert, self._open(), *map(ctypes.c_uint32, (first, width, rows)),
              source, ctypes.c_size_t(len(given)), target, ctypes.c_size_t(len(target)))
        return _as_array(target) if is_array else target.raw

    def close(self):
        if self._owner.owner:
            _library.sws_plan_close(ctypes.byref(self._owner))
            self._owner.owner = None

    def _open(self):
        if not self._owner.owner:
            raise Error(18)
        return ctypes.byref(self._owner)

    def __del__(self):
        if hasattr(self, "_owner"):
            self.close()


def _contiguous(frame):
    import numpy
    return numpy.ascontiguousarray(frame)


def _as_array(target):
    import numpy
    return numpy.frombuffer(target, dtype=numpy.uint8)
