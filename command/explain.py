"""An answer in plain sentences: what its number means, what it names, and for a table that was loaded each task's part of the processor."""
from command.numbers import MEANING
from command.output import columns, counted
from command.records import MOST, RECORD, in_words, records
from command.tables import Table, against_one, beyond, figures, percent, share


def lines(image):
    table = Table(image)
    yield f'{table.answer.number} means "{MEANING[table.answer.number]}"{beyond(table.answer)}.'
    yield from refused(table) if table.judged.load else judged(table)


def refused(table):
    """What a refused load names. The loader tells a record's place; its bytes are shown for the reader to judge."""
    image, (_, number, place) = table.image, table.answer
    length = f"{len(image):,}" if len(image) <= MOST else f"more than {MOST:,}"
    if number == 1:
        yield f"The image has {length} bytes. No record was looked at."
    elif number == 7:
        yield f"The image has {length} bytes and {counted(place, 'record')}, none of them a task; the place is their count."
    else:
        record = records(image)[place]
        yield f"It names record {place}, counted from 0, at bytes {place * RECORD} to {place * RECORD + RECORD - 1}: {in_words(record)}."
        for at in range(0, RECORD, RECORD // 2):
            yield "    " + " ".join(f"{byte:02x}" for byte in record[at : at + RECORD // 2])
    yield "The image is refused as a whole: no task of it is judged."


def judged(table):
    named = table.task(table.judged.task)
    if named:
        yield f"It names task {named.number}, the first in table order at which it arises: {', '.join(fields(named))}."
    elif table.judged.verdict:
        yield "It names no task."
    yield f"The image is loaded: {table.held()}."
    yield f"The figures are {figures(table)}{':' if table.board else '.'}"
    if table.board:
        yield "    " + ", ".join(f"{name} {value:,}" for name, value in table.board.items())
    yield "Times are in ticks of 10 ns. Load is cost plus charge; load/period is a task's share of the processor."
    if table.deadlines():
        yield "A deadline counts from the release; where a task has none of its own it is the period. An FP task must have its time by then."
    yield ""
    yield from task_rows(table)
    yield ""
    yield from sum_rows(table)


def fields(task):
    """What the record of a task says of it."""
    yield from (task.queue, f"period {task.period:,}", f"cost {task.cost:,}")
    if task.deadline:
        yield f"deadline {task.deadline:,}"


def mark(table, marked):
    return f"<- {MEANING[table.judged.verdict]}" if marked else ""


def task_rows(table):
    """A row for each task; the column of deadlines is there where a task has one of its own."""
    own = table.deadlines()
    rows = [("task", "queue", "period", *(("deadline",) if own else ()), "cost", "charge", "load", "load/period", "")]
    for t in table.tasks:
        spans = (t.period, t.deadline or t.period) if own else (t.period,)
        ticks = (f"{value:,}" for value in (*spans, t.cost, t.charge, t.load))
        rows.append((str(t.number), t.queue, *ticks, percent(t.share), mark(table, t.number == table.judged.task)))
    return columns(rows, right=(0, *range(2, len(rows[0]) - 1)))


def sum_rows(table):
    rows = [("sum of", "tasks", "load/period", "")]
    for name, tasks, over_full in table.sums():
        rows.append((name, str(len(tasks)), against_one(share(tasks)), mark(table, over_full)))
    return columns(rows, right=(1,))
