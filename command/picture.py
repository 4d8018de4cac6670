"""`picture`: a table as a bench engineer would sketch it, in plain SVG. Cost is black, charge is hatched, what is free is white."""
import os
from fractions import Fraction
from xml.sax.saxutils import escape

from command import files, tables
from command.output import counted
from command.records import QUEUES
from command.tables import against_one, figures, meaning, percent, share

WIDTH, MARGIN, LINE, BAR = 1096, 30, 21, 12
LEFT, ONE = 206, 400  # where bars start, and how long a whole period is
OVER, SEEN = Fraction(107, 100), Fraction(2, ONE)  # where a longer bar is cut; the least that is seen
RIGHT = {"cost": 746, "charge": 840, "load": 950, "load/period": WIDTH - MARGIN}
HATCH = (
    '<defs><pattern id="charge" width="5" height="5" patternUnits="userSpaceOnUse" patternTransform="rotate(45)">'
    '<rect width="5" height="5" fill="white"/><rect width="2" height="5" fill="black"/></pattern></defs>'
)


class Sheet:
    """Elements of a picture, from the top down; `y` is the middle of the present line."""

    def __init__(self):
        self.y, self.parts = MARGIN, []

    def down(self, lines=1):
        self.y += round(LINE * lines)

    def text(self, x, text, end=False, bold=False, size=13):
        style = (' text-anchor="end"' if end else "") + (' font-weight="bold"' if bold else "") + (f' font-size="{size}"' if size != 13 else "")
        self.parts.append(f'<text x="{x}" y="{self.y + 4}"{style}>{escape(text)}</text>')

    def box(self, x, width, fill, height=BAR):
        self.parts.append(f'<rect x="{place(x)}" y="{self.y - height // 2}" width="{place(width)}" height="{height}" fill="{fill}"/>')

    def frame(self, x, width, thick=1):
        at = f'x="{place(x)}" y="{self.y - BAR // 2}" width="{place(width)}" height="{BAR}"'
        self.parts.append(f'<rect {at} fill="none" stroke="black" stroke-width="{thick}"/>')

    def path(self, steps, fill="none", thick=1):
        self.parts.append(f'<path d="{steps}" fill="{fill}" stroke="black" stroke-width="{thick}"/>')

    def svg(self):
        height = self.y + MARGIN
        head = f'<svg xmlns="http://www.w3.org/2000/svg" width="{WIDTH}" height="{height}" viewBox="0 0 {WIDTH} {height}"'
        head += ' font-family="DejaVu Sans, Verdana, Arial, sans-serif" font-size="13">'
        paper = f'<rect width="{WIDTH}" height="{height}" fill="white"/>'
        return "\n".join([head, HATCH, paper, *self.parts, "</svg>"]) + "\n"


def place(value):
    """A length in hundredths of a point, the same on every machine."""
    hundredths = round(Fraction(value) * 100)
    whole, rest = divmod(hundredths, 100)
    return str(whole) if not rest else f"{whole}.{rest:02}".rstrip("0")


def drawn(part):
    """How long a part is drawn: what is not 0 is seen, so is that something is less or more than 1, and what is too long is cut."""
    if part > 1:
        return min(max(part, 1 + 3 * SEEN), OVER)
    return min(max(part, SEEN), 1 - SEEN) if 0 < part < 1 else part


def bar(sheet, cost, charge, marked):
    """Cost and charge as parts of 1. A bar that is longer than there is room for is cut, with a torn end."""
    black, end = drawn(cost), drawn(cost + charge)
    sheet.box(LEFT, black * ONE, "black")
    sheet.box(LEFT + black * ONE, (end - black) * ONE, "url(#charge)")
    sheet.frame(LEFT, end * ONE)
    sheet.frame(LEFT, ONE, 2.5 if marked else 1)
    if cost + charge > 1:
        upright_on_white(sheet, LEFT + ONE, BAR // 2)
    if cost + charge > OVER:
        torn(sheet, LEFT + OVER * ONE)


def torn(sheet, x):
    zigzag = f"M{place(x - 2)} {sheet.y - BAR // 2 - 1} l4 4 l-4 3 l4 3 l-4 4"
    sheet.path(zigzag + " h9 v-14 z", "white", 0)
    sheet.path(zigzag)


def upright(sheet, x, top, bottom, colour="black", thick=2):
    sheet.parts.append(f'<path d="M{place(x)} {top} V{bottom}" stroke="{colour}" stroke-width="{thick}"/>')


def upright_on_white(sheet, x, half):
    """A line through the middle of the present line, to be seen on black too."""
    upright(sheet, x, sheet.y - half, sheet.y + half, "white", 4)
    upright(sheet, x, sheet.y - half, sheet.y + half)


def flag(sheet, x):
    """A deadline: a line through the bar, with a small triangle on it."""
    upright_on_white(sheet, x, BAR // 2 + 2)
    sheet.path(f"M{place(x - 4)} {sheet.y - BAR // 2 - 5} h8 l-4 5 z", "black")


def pointer(sheet):
    sheet.path(f"M{MARGIN - 18} {sheet.y - 6} l11 6 l-11 6 z", "black")


def heading(sheet, name, table):
    """What the picture is of, what the verdict says, whose figures hold, and what the fills mean."""
    sheet.text(MARGIN, short(name), bold=True, size=16)
    sheet.down(1.2)
    named = f", task {table.judged.task}" if table.judged.task else ""
    sheet.text(MARGIN, f"verdict {table.judged.verdict}{named}: {meaning(table.answer)}", bold=True)
    sheet.down()
    sheet.text(MARGIN, f"{table.held()}; the figures are {figures(table)}")
    sheet.down(1.4)
    sheet.text(MARGIN, "a bar is a task's period; times in ticks of 10 ns")
    for x, fill, what in ((400, "black", "cost"), (480, "url(#charge)", "charge"), (576, "white", "free"), (650, "white", "longer than drawn")):
        sheet.box(x, 24, fill)
        sheet.frame(x, 24)
        sheet.text(x + 32, what)
    torn(sheet, 674)
    if table.deadlines():
        sheet.frame(830, 24)
        flag(sheet, 842)
        sheet.text(862, "deadline of its own")
    sheet.down(1.6)


def short(name):
    """A name that fits the page."""
    return name if len(name) <= 80 else f"{name[:38]} … {name[-38:]}"


def queues(sheet, table):
    """The tasks of each queue that has any."""
    for queue in QUEUES.values():
        tasks = [t for t in table.tasks if t.queue == queue]
        if not tasks:
            continue
        sheet.text(MARGIN, f"{queue}: {counted(len(tasks), 'task')}", bold=True)
        sheet.text(LEFT - 14, "period", end=True)
        for what, x in RIGHT.items():
            sheet.text(x, what, end=True)
        for task in tasks:
            sheet.down()
            task_line(sheet, task, task.number == table.judged.task)
        sheet.down(1.5)


def task_line(sheet, task, marked):
    if marked:
        pointer(sheet)
    sheet.text(MARGIN, f"{task.number}", bold=marked)
    sheet.text(LEFT - 14, f"{task.period:,}", end=True, bold=marked)
    bar(sheet, Fraction(task.cost, task.period), Fraction(task.charge, task.period), marked)
    for value, x in zip((f"{task.cost:,}", f"{task.charge:,}", f"{task.load:,}", percent(task.share)), RIGHT.values()):
        sheet.text(x, value, end=True, bold=marked)
    if task.deadline:
        deadline_line(sheet, task, marked)


def deadline_line(sheet, task, marked):
    """The deadline on the task's bar, and its ticks on a line below, on the side where there is more room."""
    part = drawn(Fraction(task.deadline, task.period))
    flag(sheet, LEFT + part * ONE)
    sheet.down(0.8)
    sheet.text(round(LEFT + part * ONE), f"deadline {task.deadline:,}", end=2 * part > 1, bold=marked, size=11)


def sums(sheet, table):
    """The sums against 1, whose line runs through all of them."""
    sheet.text(MARGIN, "sums of load/period", bold=True)
    sheet.text(LEFT + ONE - 4, "1", bold=True)
    top = sheet.y + 8
    for name, tasks, marked in table.sums():
        sheet.down()
        if marked:
            pointer(sheet)
        sheet.text(MARGIN, name, bold=marked)
        bar(sheet, sum(Fraction(t.cost, t.period) for t in tasks), sum(Fraction(t.charge, t.period) for t in tasks), marked)
        sheet.text(WIDTH - MARGIN, against_one(share(tasks)), end=True, bold=marked)
    upright(sheet, LEFT + ONE, top, sheet.y + 12)


def draw(name, table):
    sheet = Sheet()
    heading(sheet, name, table)
    queues(sheet, table)
    sums(sheet, table)
    return sheet.svg()


def picture(found, words):
    source, target = words
    name = files.shown(os.path.basename(source)).encode("utf-8", "replace").decode("utf-8")
    files.write(target, draw(name, tables.accepted(source)).encode("utf-8"), "--force" in found)
    return 0
