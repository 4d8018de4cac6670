"""The proved library's five functions, called through ctypes. include/rack.h says what each byte means."""
import ctypes
import struct
from collections import namedtuple

from command import build
from command.output import Trouble

JUDGE_BYTES = 1032
SCRIPT_RECORD, PLAYED_RECORD = 16, 32

Charged = namedtuple("Charged", "number queue charge")
Judged = namedtuple("Judged", "load verdict place task tasks")
Played = namedtuple("Played", "answer running asked queue position deadline")

loaded = None


def proved():
    """The library, built where it is missing or old, and loaded once."""
    global loaded
    if loaded is None:
        path = build.shared_object()
        try:
            loaded = ctypes.CDLL(path)
            for name in ("rack_judge", "rack_rewrite", "rack_import", "rack_export", "rack_play"):
                getattr(loaded, name).restype = ctypes.c_uint64
        except (OSError, AttributeError) as e:
            raise Trouble(f"the proved library cannot be loaded: {e}")
    return loaded


def call(name, *buffers):
    """Calls a function with each buffer as a pointer and a length; a length of 0 still has a pointer."""
    words = []
    for b in buffers:
        words += [ctypes.byref(b), ctypes.c_size_t(len(b) - 1)]
    return getattr(proved(), name)(*words)


def lent(data):
    """Bytes to lend, with one more behind them that is never lent."""
    return ctypes.create_string_buffer(bytes(data), len(data) + 1)


def judge(image):
    out = lent(bytes(JUDGE_BYTES))
    length = call("rack_judge", lent(image), out)
    load, verdict, place, task, n = struct.unpack_from("<BBHHH", out)
    if length != 8 + 16 * n:
        raise Trouble(f"rack_judge gave {length}, which is not what {n} tasks take")
    return Judged(load, verdict, place, task, [Charged(*struct.unpack_from("<HB5xQ", out, 8 + 16 * i)) for i in range(n)])


def rewrite(image, before):
    """The write's number, and the buffer that held `before` as the write left it."""
    buf = lent(before)
    number = call("rack_rewrite", lent(image), buf)
    return number, buf.raw[: len(before)]


def import_list(data, size):
    """The number, the place of a refused record, and a buffer of so many bytes with the image of a list's table."""
    buf = lent(bytes(size))
    place, number = divmod(call("rack_import", lent(data), buf), 256)
    return number, place, buf.raw[:size]


def export_list(image, size):
    """The write's number, and a buffer of so many bytes with the table as a list, for an image that loads."""
    buf = lent(bytes(size))
    number = call("rack_export", lent(image), buf)
    return number, buf.raw[:size]


def play(image, script):
    """What came of each call of the script, for an image that loads."""
    count = len(script) // SCRIPT_RECORD
    out = lent(bytes(PLAYED_RECORD * count))
    played = call("rack_play", lent(image), lent(script), out)
    if played != count:
        raise Trouble(f"rack_play played {played} calls of {count}")
    return [Played(*struct.unpack_from("<BxHBBBxQ", out, PLAYED_RECORD * i)) for i in range(count)]


def script_record(call_code, number, asked, time):
    return struct.pack("<BxHH2xQ", call_code, number, asked, time)
