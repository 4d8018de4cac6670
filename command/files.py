"""Files read and written, and the trouble with them named: the one place that opens a file of the caller's."""
import errno
import os
import shutil
from contextlib import contextmanager

from command.output import Trouble, complain
from command.records import MOST

TEXT_MOST = 1_000_000
LIST_MOST = 48_000_000


def shown(path):
    """A path on one line: what cannot be printed is written as an escape."""
    return "".join(c if c.isprintable() or "\udc80" <= c <= "\udcff" else repr(c)[1:-1] for c in path)


def trouble(path, error):
    if os.path.islink(path) and not os.path.exists(path):
        return Trouble(f"{shown(path)}: a symbolic link to nowhere")
    return Trouble(f"{shown(path)}: {error.strerror or error}")


def read_bytes(path, most):
    try:
        with open(path, "rb") as f:
            return f.read(most)
    except OSError as e:
        raise trouble(path, e)


def read_image(path):
    """An image, of a longer file one byte too many, which the proved code sees."""
    return read_bytes(path, MOST + 1)


def read_whole(path, most, what):
    data = read_bytes(path, most + 1)
    if len(data) > most:
        raise Trouble(f"{shown(path)}: longer than {most:,} bytes, which no {what} here is")
    return data


def read_list(path):
    """A Linux list, with all that stands behind the records that a table has room for: its length counts."""
    return read_whole(path, LIST_MOST, "list")


def images(paths):
    """Each path with its image, or with None where it cannot be read and that was told."""
    for path in paths:
        try:
            image = read_image(path)
        except Trouble as e:
            complain(e)
            image = None
        yield path, image


def read_lines(path):
    """The lines of a text: their number, and their words without what follows a '#'."""
    try:
        lines = read_whole(path, TEXT_MOST, "text").decode("utf-8").splitlines()
    except UnicodeDecodeError:
        raise Trouble(f"{shown(path)}: not a text file")
    for at, line in enumerate(lines, 1):
        words = line.split("#")[0].split()
        if words:
            yield at, words


@contextmanager
def line(path, at):
    """Trouble with a line is told by the file and the line's number."""
    try:
        yield
    except Trouble as e:
        raise Trouble(f"{shown(path)}, line {at}: {e}")


def put_new(path, data):
    """Writes a file that is not there yet; none is left where that fails."""
    made = False
    try:
        with open(path, "xb") as f:
            made = True
            f.write(data)
    except OSError:
        if made:
            os.unlink(path)
        raise


def put_over(path, data):
    """Writes beside the file first, so that the old one stays whole where that fails."""
    there = os.path.exists(path)
    if there and not os.path.isfile(path):
        with open(path, "wb") as f:
            f.write(data)
        return
    path = os.path.realpath(path)
    beside = f"{path}.{os.getpid()}.new"
    put_new(beside, data)
    try:
        if there:
            shutil.copymode(path, beside)
        os.replace(beside, path)
    except OSError:
        os.unlink(beside)
        raise


def write(path, data, force):
    """Writes over nothing, unless it is asked to."""
    if os.path.isdir(path):
        raise Trouble(f"{shown(path)}: {os.strerror(errno.EISDIR)}")
    try:
        (put_over if force else put_new)(path, data)
    except FileExistsError:
        raise Trouble(f"{shown(path)} is there already; --force writes over it")
    except OSError as e:
        raise trouble(path, e)
