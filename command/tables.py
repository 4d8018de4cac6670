"""An image beside what the proved code says of it. Nothing is decided here: a load and a share are worked out for print."""
from collections import namedtuple
from fractions import Fraction

from command import files, library
from command.numbers import MEANING
from command.output import Trouble, counted
from command.records import ERASED, QUEUES, decode, records

Answer = namedtuple("Answer", "word number place")


class Row:
    """A task of the table: number, queue and charge from the proved code, period, cost and deadline (None where it is the period) from the image."""

    def __init__(self, proved, values):
        self.number, self.queue, self.charge = proved.number, QUEUES[proved.queue], proved.charge
        self.period, self.cost, self.deadline = values["period"], values["cost"], values.get("deadline")
        self.load = self.cost + self.charge
        self.share = Fraction(self.load, self.period)


class Table:
    def __init__(self, image):
        self.image, self.judged = image, library.judge(image)
        self.answer = answer(self.judged)
        found = [] if self.judged.load else records(image)
        read = [decode(r) for r in found]
        tasks = [r.values for r in read if r.kind == "task"]
        self.tasks = [Row(*both) for both in zip(self.judged.tasks, tasks)]
        self.board = next((r.values for r in read if r.kind == "board"), None)
        self.semaphores = [r.values["number"] for r in read if r.kind == "semaphore"]
        self.erased = found.count(ERASED)

    def task(self, number):
        return next((t for t in self.tasks if t.number == number), None)

    def held(self):
        parts = (len(self.tasks), "task"), (len(self.semaphores), "semaphore"), (self.erased, "erased record")
        return ", ".join(counted(n, what) for n, what in parts)

    def deadlines(self):
        """Whether a task has a deadline of its own."""
        return any(t.deadline for t in self.tasks)

    def sums(self):
        """The sums of load/period: a name, the tasks, and whether the verdict is that their sum is over full."""
        for name, queues, over_full in SUMS:
            yield name, [t for t in self.tasks if t.queue in queues], self.judged.verdict == over_full


# what is summed, over which queues, and the number of the test that compares it with 1
SUMS = (("DP1", ("DP1",), 11), ("DP1 and DP2", ("DP1", "DP2"), 12), ("all tasks", ("DP1", "DP2", "FP"), None))


def share(tasks):
    return sum(t.share for t in tasks)


def answer(judged):
    """The checking program's last line, as a word and two numbers."""
    if judged.load:
        return Answer("image", judged.load, judged.place)
    return Answer("verdict", judged.verdict, judged.task)


def beyond(answer):
    """What 'done' says of a table."""
    return "" if answer.number else ": the table passes"


def meaning(answer):
    return MEANING[answer.number] + beyond(answer)


def figures(table):
    return "the image's own" if table.board else "the built-in ones, as there is no board record"


def accepted(path):
    """The table of an image that loads; Trouble for one that is refused."""
    table = Table(files.read_image(path))
    if table.judged.load:
        a = table.answer
        raise Trouble(f"{files.shown(path)}: the image is refused with {a.number} at record {a.place}: {MEANING[a.number]}")
    return table


def percent(share):
    """Two decimals, never 100.00 for what is not 100, nor 0.00 for what is not 0."""
    hundredths = round(share * 10_000)
    if share > 1:
        hundredths = max(hundredths, 10_001)
    elif share < 1:
        hundredths = min(hundredths, 9_999)
    if share and not hundredths:
        return "<0.01 %"
    return f"{hundredths // 100:,}.{hundredths % 100:02} %"


def against_one(share):
    """A sum in percent, and in words where it is above 1."""
    return percent(share) + (", above 100 %" if share > 1 else "")
