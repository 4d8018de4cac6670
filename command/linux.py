"""Linux lists: `import` turns one into an image, `export` an image into one, both by the proved code. What is said beside is worked out for print."""
import struct

from command import files, library, tables, texts
from command.numbers import MEANING
from command.output import Trouble, counted, say
from command.records import MOST, RECORD

ATTR = struct.Struct("<IIQiIQQQ")  # a record as sched_setattr(2) has it
FIELDS = ("size", "policy", "flags", "nice", "priority", "runtime", "deadline", "period")
TICK = 10  # nanoseconds


def named(data, place):
    """What a refusal names: the list's length, if that is 0 or no whole number of records, else the fields of the record at its place."""
    if len(data) % ATTR.size or not data:
        return f"it has {counted(len(data), 'byte')}"
    return ", ".join(f"{name} {value:,}" for name, value in zip(FIELDS, ATTR.unpack_from(data, place * ATTR.size)))


def rounded(data):
    """How many runtimes and periods were no whole number of ticks."""
    found = [dict(zip(FIELDS, values)) for values in ATTR.iter_unpack(data)]
    up, down = (sum(attr[name] % TICK > 0 for attr in found) for name in ("runtime", "deadline"))
    if up + down == 0:
        return "nothing was rounded"
    return f"{counted(up, 'runtime')} rounded up and {counted(down, 'period')} down to ticks of {TICK} ns"


def read(found, words):
    """`import`. Without --size the buffer just holds the table; of a longer one the proved code sees one byte too many."""
    (source, target), size = words, found.get("--size")
    data = files.read_list(source)
    needed = len(data) // ATTR.size * RECORD
    number, place, image = library.import_list(data, min(needed if size is None else size, MOST + 1))
    if number == 9:
        raise texts.wrong_size(size, needed)
    if number:
        raise Trouble(f"{files.shown(source)}: the list is refused with {number} at record {place}: {MEANING[number]} ({named(data, place)})")
    files.write(target, image, "--force" in found)
    say(f"{files.shown(target)}: {len(image):,} bytes, {tables.Table(image).held()}; {rounded(data)}")
    return 0


def outside(table):
    """The tasks that a list has no place for."""
    return ", ".join(f"task {t.number} is in {t.queue}" for t in table.tasks if t.queue != "DP1")


def left_out(table):
    """What else a list has no place for, which is no refusal."""
    parts = ([counted(len(table.semaphores), "semaphore")] if table.semaphores else []) + (["the board record"] if table.board else [])
    return f"; left out: {', '.join(parts)}" if parts else ""


def write(found, words):
    """`export`."""
    source, target = words
    table = tables.accepted(source)
    number, data = library.export_list(table.image, ATTR.size * len(table.tasks))
    if number:
        raise Trouble(f"{files.shown(source)}: writing is refused with {number}: {MEANING[number]} ({outside(table)})")
    files.write(target, data, "--force" in found)
    say(f"{files.shown(target)}: {len(data):,} bytes, {counted(len(table.tasks), 'record')}{left_out(table)}")
    return 0
