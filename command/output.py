"""What is said: answers on standard output, trouble and progress on standard error."""
import os
import sys


class Trouble(Exception):
    """Something that the caller should hear of in one line."""


class Unsaid(Trouble):
    """Standard output takes no more."""


def start():
    """Lets the names of files come out as they are, whatever the locale."""
    if sys.stdout is None:
        raise Unsaid("standard output is closed")
    for stream in (sys.stdout, sys.stderr):
        if stream is not None:
            stream.reconfigure(encoding="utf-8", errors="surrogateescape")


def say(text="", end="\n"):
    try:
        sys.stdout.write(text + end)
    except OSError as e:
        raise unsaid(e)


def finish():
    """All that was said is out."""
    try:
        sys.stdout.flush()
    except OSError as e:
        raise unsaid(e)


def unsaid(error):
    """What is still to be said goes nowhere, so that the end of the program does not try it again."""
    os.dup2(os.open(os.devnull, os.O_WRONLY), sys.stdout.fileno())
    if isinstance(error, BrokenPipeError):
        return Unsaid("standard output was closed before all was said")
    return Unsaid(f"standard output: {error.strerror or error}")


def murmur(text):
    """To standard error; if that is closed, there is nobody left to tell."""
    try:
        if sys.stderr is not None:
            sys.stderr.write(text)
            sys.stderr.flush()
    except OSError:
        pass


def complain(trouble):
    murmur(f"rack: {trouble}\n")


def columns(rows, right=()):
    """Lines of rows of words, each column as wide as its widest word; those named in `right` end at their right."""
    widths = [max(len(row[i]) for row in rows) for i in range(len(rows[0]))] if rows else []
    for row in rows:
        cells = [c.rjust(w) if i in right else c.ljust(w) for i, (c, w) in enumerate(zip(row, widths))]
        yield "  ".join(cells).rstrip()


def counted(n, one, many=None):
    """'1 task', '2 tasks'."""
    return f"{n:,} {one if n == 1 else many or one + 's'}"
