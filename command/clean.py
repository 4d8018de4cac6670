"""`clean`: loads an image and writes its table anew by the proved rack_rewrite."""
import os

from command import files, library, tables
from command.numbers import MEANING
from command.output import Trouble, say


def clean(found, words):
    """The buffer is as long as the image and holds noise first: what stood there before has no part in the result."""
    source, target = words
    table = tables.accepted(source)
    number, written = library.rewrite(table.image, os.urandom(len(table.image)))
    if number:
        raise Trouble(f"{files.shown(source)}: writing is refused with {number}: {MEANING[number]}")
    files.write(target, written, "--force" in found)
    same = "the same bytes as" if written == table.image else "other bytes than"
    say(f"{files.shown(target)}: {len(written):,} bytes, {table.held()}; {same} {files.shown(source)}")
    return 0
