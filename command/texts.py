"""Text tables: `make` turns one into an image, `show` an image into one. What is said of a line helps to write it; what counts is what the proved
code says of the image."""
from itertools import zip_longest

from command import files, tables
from command.output import Trouble, say
from command.records import KINDS, MOST, MOST_SEMAPHORES, MOST_TASKS, QUEUES, RECORD, decode, encode, limits, records

CODES = {name: code for code, name in QUEUES.items()}


def whole(word, what, least, most, said=None):
    if not word.isascii() or not word.isdigit():
        raise Trouble(f"{what} '{word}' is not a whole number")
    value = int(word) if len(word) <= 20 else most + 1
    if not least <= value <= most:
        raise Trouble(f"{what} {word} is not from {least:,} to {most:,}" + (f", {said}" if said else ""))
    return value


def one_of(word, known, what=""):
    if word not in known:
        raise Trouble(f"{what}'{word}' is none of {', '.join(known)}")
    return known[word]


def read_fields(kind, words):
    """The fields of a record from the words of a line."""
    values = {}
    for field, word in zip(kind.fields, words):
        if field.name == "queue":
            values["queue"] = one_of(word, CODES, "queue ")
        else:
            values[field.name] = whole(word, "figure" if kind.name == "board" else field.name, *limits(field, values))
    return values


def read_optional(field, word, values):
    """A field that not every record of its kind has; `values` are the fields before it."""
    if field.name in values:
        raise Trouble(f"{field.name} is said twice")
    if word is None:
        raise Trouble(f"{field.name} wants a number behind it")
    if values["queue"] not in field.queues:
        raise Trouble(f"a {field.name} is for {' and '.join(QUEUES[q] for q in field.queues)} tasks, not for {QUEUES[values['queue']]}")
    least, most = limits(field, values)
    if least > most:
        raise Trouble(f"there is no room for a {field.name}: it would be from {least:,} to {most:,}, {field.said}")
    return whole(word, field.name, least, most, field.said)


def board_fits(board, seen):
    if any(seen.values()):
        raise Trouble("there is at most one board, and it comes first")


def task_fits(task, seen):
    if seen["semaphore"]:
        raise Trouble("tasks come before semaphores")
    if seen["task"]:
        last = seen["task"][-1]
        if task["queue"] < last["queue"]:
            raise Trouble("queues never fall: DP1, then DP2, then FP")
        if (task["period"], task["number"]) <= (last["period"], last["number"]):
            raise Trouble("tasks come by rising period, equal periods by rising number")
    if any(task["number"] == t["number"] for t in seen["task"]):
        raise Trouble(f"task number {task['number']} is used twice")
    if len(seen["task"]) == MOST_TASKS:
        raise Trouble(f"there are at most {MOST_TASKS} tasks")


def semaphore_fits(semaphore, seen):
    if seen["semaphore"] and semaphore["number"] <= seen["semaphore"][-1]["number"]:
        raise Trouble("semaphores come by rising number")
    if len(seen["semaphore"]) == MOST_SEMAPHORES:
        raise Trouble(f"there are at most {MOST_SEMAPHORES} semaphores")


LINES = {
    "board": (board_fits, "a board has nine figures, not {}"),
    "task": (task_fits, "a task has a queue, a number, a period and a cost, and may have 'deadline' and a number behind them"),
    "semaphore": (semaphore_fits, "a semaphore has a number and nothing more"),
}


def record_of(words, seen):
    """The record of a line; `seen` holds those before it."""
    name, words = words[0], words[1:]
    (fits, shape), kind = one_of(name, LINES), KINDS[name]
    more, optional = words[len(kind.fields) :], {field.name: field for field in kind.optional}
    if len(words) < len(kind.fields) or any(word not in optional for word in more[::2]):
        raise Trouble(shape.format(len(words)))
    values = read_fields(kind, words)
    for word, number in zip_longest(more[::2], more[1::2]):
        values[word] = read_optional(optional[word], number, values)
    fits(values, seen)
    seen[name].append(values)
    return encode(kind, values)


def image_of(path):
    seen, image = {name: [] for name in LINES}, b""
    for at, words in files.read_lines(path):
        with files.line(path, at):
            image += record_of(words, seen)
    if not seen["task"]:
        raise Trouble(f"{files.shown(path)}: there is no task")
    return image


def wrong_size(size, least):
    return Trouble(f"--size {size}: a multiple of 32 from {least} to 4096 is needed")


def make(found, words):
    table, target = words
    image, size = image_of(table), found.get("--size")
    if size is not None:
        if size % RECORD or size > MOST or size < len(image):
            raise wrong_size(size, len(image))
        image = image.ljust(size, b"\xff")
    files.write(target, image, "--force" in found)
    return 0


def show(found, words):
    for record in records(tables.accepted(words[0]).image):
        kind, values = decode(record)
        if kind:
            say(line_of(KINDS[kind], values))
    return 0


def line_of(kind, values):
    """A record as a line of a text table."""
    words = [kind.name] + [QUEUES[values["queue"]] if f.name == "queue" else str(values[f.name]) for f in kind.fields]
    return " ".join(words + [f"{f.name} {values[f.name]}" for f in kind.optional if f.name in values])
