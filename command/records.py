"""The records of an image: which bytes hold which field, within which limits. Every reading and writing of a field goes by this table."""
from collections import namedtuple

RECORD, MOST = 32, 4096
MOST_TASKS, MOST_SEMAPHORES = 64, 16
ERASED = b"\xff" * RECORD
QUEUES = {1: "DP1", 2: "DP2", 3: "FP"}

# a limit is a number, or a function of the fields before; `said` is what both limits are; `queues` are those in which a task may have the field
Field = namedtuple("Field", "name at size least most said queues", defaults=(None, tuple(QUEUES)))
# an optional field is zero where a record does without it; a text gives it behind the others, by its name
Kind = namedtuple("Kind", "code name fields optional", defaults=((),))
Record = namedtuple("Record", "kind values")

FIGURES = (
    "DP block",
    "DP unblock",
    "DP select",
    "DP select per task",
    "FP block",
    "FP block per task",
    "FP unblock",
    "FP select",
    "per queue",
)
KINDS = {
    "board": Kind(2, "board", tuple(Field(name, 2 + 2 * i, 2, 0, 10_000) for i, name in enumerate(FIGURES))),
    "task": Kind(
        1,
        "task",
        (
            Field("queue", 1, 1, 1, 3),
            Field("number", 2, 2, 1, 65_535),
            Field("period", 4, 4, 1_000, 100_000_000),
            Field("cost", 8, 4, 1, lambda task: task["period"]),
        ),
        (Field("deadline", 12, 4, lambda task: task["cost"], lambda task: task["period"] - 1, "the cost to one less than the period", (3,)),),
    ),
    "semaphore": Kind(3, "semaphore", (Field("number", 2, 2, 1, 65_535),)),
}
BY_CODE = {kind.code: kind for kind in KINDS.values()}


def records(image):
    return [image[at : at + RECORD] for at in range(0, len(image), RECORD)]


def limits(field, values):
    """The least and the most that a field may be, beside the fields before it."""
    return [bound(values) if callable(bound) else bound for bound in (field.least, field.most)]


def decode(record):
    """A record's kind and fields as they stand, whether or not they are in range, and of the optional ones those that are not zero; no kind for an
    erased or unknown one."""
    kind = None if record == ERASED else BY_CODE.get(record[0])
    if kind is None:
        return Record(None, {})
    found = {f: int.from_bytes(record[f.at : f.at + f.size], "little") for f in kind.fields + kind.optional}
    return Record(kind.name, {f.name: value for f, value in found.items() if value or f in kind.fields})


def encode(kind, values):
    record = bytearray(RECORD)
    record[0] = kind.code
    for f in kind.fields + kind.optional:
        record[f.at : f.at + f.size] = values.get(f.name, 0).to_bytes(f.size, "little")
    return bytes(record)


def in_words(record):
    """A record for a reader: 'a task record: queue 3 (FP), number 7, period 2,000, cost 1,000, deadline 1,500'."""
    kind, values = decode(record)
    if kind is None:
        return "an erased record" if record == ERASED else f"a record of kind {record[0]}"
    return f"a {kind} record: " + ", ".join(f"{name} {value:,}{queue_name(name, value)}" for name, value in values.items())


def queue_name(name, value):
    return f" ({QUEUES[value]})" if name == "queue" and value in QUEUES else ""
