"""The commands: each with its name, what it takes, its help and its function. `./rack help` and every call go by this list."""
from collections import namedtuple

from command import checks, clean, inventory, linux, output, picture, play, texts
from command.output import Trouble, Unsaid, complain, say

Command = namedtuple("Command", "name takes summary help options words function")
ANY = 10**9

COMMANDS = (
    Command(
        "check",
        "[--explain] [--strict] IMAGE...",
        "what the proved checking program says of each table memory",
        """\
For each task its number, queue (1 DP1, 2 DP2, 3 FP) and charge, and last `verdict`, the number and the task that it names; of an image that is
refused only `image`, the number and the record's place.

  --explain   behind each answer plain sentences: what the number means and what it names; for a table that was loaded a row for each task with its
              period, cost, charge, load and load/period, and its deadline where a task has one of its own; the sums of DP1, of DP1 and DP2 and of all
              tasks, and whose figures hold
  --strict    exit with 3 where an image is refused or its verdict is not 0""",
        {"--explain": None, "--strict": None},
        (1, ANY, "an image"),
        checks.check,
    ),
    Command(
        "inventory",
        "[--json] [--strict] FOLDER|IMAGE...",
        "a row for each image of a shelf of memories, and totals, worst first",
        """\
A row for each image: its name, the answer, what it means. Then the totals for each kind of answer: refused images first, then tables that do not pass,
then those that do; the most frequent first. Of a folder the files that end in .img or .bin are taken, in name order; what is passed over is named (more
than three names of one ending by their count). To take other files, name them: ./rack inventory FOLDER/*

  --json      the same for programs, an object a line: "file" for each image, "total" for each kind of answer, then "not read" and "passed over"
  --strict    exit with 3 where an image is refused or its verdict is not 0""",
        {"--json": None, "--strict": None},
        (1, ANY, "a folder or an image"),
        inventory.inventory,
    ),
    Command(
        "clean",
        "[--force] IMAGE NEW",
        "loads an image and writes its table anew by the proved code",
        """\
The image is loaded and written into a buffer of its length that held noise, so that nothing but the table is in what comes out; NEW gets that. What the
loader refuses is refused, and nothing is written.

  --force     write over a file that is there""",
        {"--force": None},
        (2, 2, "an image and the file to write"),
        clean.clean,
    ),
    Command(
        "picture",
        "[--force] IMAGE OUT.svg",
        "draws a table: each task's cost and charge in its period, the sums against 1",
        """\
A bar for each task by queue, its length the period, in it cost and charge, and a flag at its deadline where it has one of its own; below, the sums of
load/period of DP1, of DP1 and DP2 and of all tasks against 1. What the verdict names is marked. Plain SVG, readable in black and white; every number in it
is the image's or the proved code's, or their load/period.

  --force     write over a file that is there""",
        {"--force": None},
        (2, 2, "an image and the file to write"),
        picture.picture,
    ),
    Command(
        "play",
        "[--standing TASK] IMAGE SCRIPT.txt",
        "plays a script of calls on a table: each answer, and who runs then",
        """\
A script has a call on each line; '#' starts a comment:

  release 7 0      task, time              acquire 1     semaphore, by the running task
  signal 7         task                    give 1        semaphore, by the running task
  withdraw 7       task                    complete      by the running task
                                           block         by the running task

For each call the answer with its meaning, and the task that runs then.

  --standing TASK    also this task's standing after each call: queue, deadline, position""",
        {"--standing": "a task's number"},
        (2, 2, "an image and a script"),
        play.play,
    ),
    Command(
        "make",
        "[--size BYTES] [--force] TABLE.txt IMAGE",
        "turns a plain text table into an image",
        """\
A text table has a line for each thing, in the order of the image; '#' starts a comment:

  board 160 120 120 25 100 36 140 60 55    the nine figures; left out, the built-in ones hold
  task DP1 7 2000 1000                     queue (DP1, DP2 or FP), number, period, cost; times in ticks of 10 ns
  task FP 9 2000 1000 deadline 1500        in FP also a deadline, from the cost to one less than the period; left out, it is the period
  semaphore 1                              number

  --size BYTES    fill the image with erased records up to so many bytes
  --force         write over a file that is there""",
        {"--size": "a number", "--force": None},
        (2, 2, "a text table and the image to write"),
        texts.make,
    ),
    Command(
        "show",
        "IMAGE",
        "turns an image into a plain text table",
        "The image must load; what comes out is what `./rack make` reads, but for erased records.",
        {},
        (1, 1, "one image"),
        texts.show,
    ),
    Command(
        "import",
        "[--size BYTES] [--force] LIST IMAGE",
        "turns a list from a Linux rig into an image",
        """\
A list has a record of 48 bytes for each task, little-endian, as sched_setattr(2) has it: size, policy, flags, nice, priority, runtime, deadline, period,
the times in nanoseconds. Policy is 6 (SCHED_DEADLINE), flags, nice and priority are zero, the period is zero or the deadline. All tasks come into DP1,
numbered by their places from 1, and in the order of an image. Runtimes round up to a tick of 10 ns, periods down. What is refused is told by its
number and its record's place from 0, and nothing is written.

  --size BYTES    fill the image with erased records up to so many bytes
  --force         write over a file that is there""",
        {"--size": "a number", "--force": None},
        (2, 2, "a list and the image to write"),
        linux.read,
    ),
    Command(
        "export",
        "[--force] IMAGE LIST",
        "turns an image of a table in DP1 into a list for a Linux rig",
        """\
A record of 48 bytes for each task, in table order, as `./rack import` reads it, with the period in both times. Numbers, semaphores and the board record
have no place in a list. The image must load and have all its tasks in DP1, else nothing is written.

  --force     write over a file that is there""",
        {"--force": None},
        (2, 2, "an image and the list to write"),
        linux.write,
    ),
)
NAMES = {c.name: c for c in COMMANDS}
HELP = ("help", "--help", "-h")
STATUS = "Exit status: 0 done; 1 a file that cannot be read, used or written; 2 a wrong call; 3 with --strict, where an image does not pass."


class Misuse(Exception):
    """A wrong call, told with the help of the command that it is of."""

    def __init__(self, problem, command=None):
        super().__init__(problem)
        self.command = command


def help_lines(command=None):
    if command is None:
        yield "The rack executive at the command line.\n"
        yield from output.columns([(f"  ./rack {c.name}", c.summary) for c in COMMANDS] + [("  ./rack help COMMAND", "what it takes and does")])
    else:
        yield f"./rack {command.name} {command.takes}: {command.summary}\n"
        yield command.help
    yield "\n" + STATUS


def options(command, words):
    """The options among the words, and the other words; behind '--' there are no options."""
    found, rest, left = {}, [], list(words)
    while left:
        word = left.pop(0)
        if word == "--":
            return found, rest + left
        if word.startswith("--") or word in HELP[1:]:
            found[word] = value(command, word, left)
        else:
            rest.append(word)
    return found, rest


def value(command, word, left):
    """What an option has: a number, taken from the words that are left, or just that it is there."""
    if word in HELP:
        return True
    if word not in command.options:
        raise Misuse(f"there is no option {word} here", command)
    if command.options[word] is None:
        return True
    if left and left[0].isascii() and left[0].isdigit() and len(left[0]) < 20:
        return int(left.pop(0))
    raise Misuse(f"{word} wants {command.options[word]}", command)


def show_help(words):
    if len(words) > 1 or words and words[0] not in NAMES:
        raise Misuse(f"there is help for one of {', '.join(NAMES)}")
    for line in help_lines(NAMES[words[0]] if words else None):
        say(line)
    return 0


def run(words):
    if not words:
        raise Misuse("what is to be done?")
    name, words = words[0], words[1:]
    if name in HELP:
        return show_help(words)
    if name not in NAMES:
        raise Misuse(f"'{name}' is none of {', '.join(NAMES)}")
    command = NAMES[name]
    found, rest = options(command, words)
    if any(word in found for word in HELP):
        return show_help([name])
    least, most, wanted = command.words
    if not least <= len(rest) <= most:
        raise Misuse(f"{name} wants {wanted}", command)
    return command.function(found, rest)


def answered(words):
    """The exit status of a call; whatever goes wrong is told."""
    try:
        return run(words)
    except Misuse as e:
        complain(f"{e}\n\n" + "\n".join(help_lines(e.command)))
        return 2
    except Unsaid:
        raise
    except Trouble as e:
        complain(e)
        return 1
    except KeyboardInterrupt:
        complain("interrupted")
        return 130


def main(words):
    try:
        output.start()
        status = answered(words)
        output.finish()
        return status
    except Unsaid as e:
        complain(e)
        return 1
