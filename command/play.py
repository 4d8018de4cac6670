"""`play`: a script of calls, played on a table by the proved rack_play."""
from command import files, library, tables
from command.numbers import MEANING
from command.output import Trouble, columns, say
from command.records import QUEUES
from command.texts import one_of, whole

TASK, SEMAPHORE, TIME = ("task", 65_535), ("semaphore", 65_535), ("time", 2**64 - 1)
CALLS = {
    "release": (1, (TASK, TIME)),
    "signal": (2, (TASK,)),
    "withdraw": (3, (TASK,)),
    "acquire": (4, (SEMAPHORE,)),
    "give": (5, (SEMAPHORE,)),
    "complete": (6, ()),
    "block": (7, ()),
}


def record_of(words, asked):
    name, words = words[0], words[1:]
    code, wanted = one_of(name, CALLS)
    if len(words) != len(wanted):
        raise Trouble(f"{name} takes {' and '.join('a ' + what for what, _ in wanted) or 'nothing more'}")
    values = [whole(word, what, 0, most) for word, (what, most) in zip(words, wanted)]
    number, time = (values + [0, 0])[:2]
    return library.script_record(code, number, asked, time)


def script_of(path, asked):
    """The calls as they are written, and as records."""
    calls, script = [], b""
    for at, words in files.read_lines(path):
        with files.line(path, at):
            script += record_of(words, asked)
        calls.append(" ".join(words))
    if not calls:
        raise Trouble(f"{files.shown(path)}: there is no call")
    return calls, script


def standing(played):
    if played.asked:
        return f"{played.asked} {MEANING[played.asked]}"
    return f"{QUEUES[played.queue]}, deadline {played.deadline:,}, position {played.position}"


def rows(calls, played, asked):
    """A row for each call: the call, its answer and what that means, who runs then, and the standing that was asked for."""
    yield ("call", "answer", "runs") + ((f"standing of {asked}",) if asked is not None else ())
    for call, p in zip(calls, played):
        row = (call, f"{p.answer} {MEANING[p.answer]}", f"task {p.running}" if p.running else "nobody")
        yield row + ((standing(p),) if asked is not None else ())


def play(found, words):
    asked = found.get("--standing")
    if asked is not None and asked > TASK[1]:
        raise Trouble(f"--standing {asked}: a task's number is at most {TASK[1]:,}")
    table = tables.accepted(words[0])
    calls, script = script_of(words[1], asked or 0)
    for line in columns(list(rows(calls, library.play(table.image, script), asked))):
        say(line)
    return 0
