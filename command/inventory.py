"""`inventory`: a row for each image of a shelf of memories, and totals for each kind of answer, worst first."""
import json
import os
from collections import Counter

from command import files, library
from command.output import Trouble, columns, complain, counted, say
from command.tables import Answer, answer, meaning

ENDINGS = (".img", ".bin")
MANY = 3


def folder(path):
    """The images of a folder in name order, and what is passed over."""
    try:
        names = sorted(os.listdir(path))
    except OSError as e:
        raise files.trouble(path, e)
    taken, passed = [], []
    for name in names:
        whole = os.path.join(path, name)
        wanted = name.lower().endswith(ENDINGS) and (os.path.isfile(whole) or not os.path.exists(whole))
        (taken if wanted else passed).append(whole)
    return taken, passed


def gather(words):
    """The images that the words name, what is passed over, and the folders that cannot be read, which is told."""
    taken, passed, unread = [], [], []
    for word in words:
        try:
            more, over = folder(word) if os.path.isdir(word) else ([word], [])
            taken, passed = taken + more, passed + over
        except Trouble as e:
            complain(e)
            unread.append(word)
    return taken, passed, unread


def badness(answer):
    """The worst first: an image that is refused, a table that does not pass, one that does."""
    if answer.word == "image":
        return 0
    return 1 if answer.number else 2


def totals(answers):
    """Each kind of answer with its count, worst first, and of those equally bad the most frequent."""
    kinds = Counter(Answer(a.word, a.number, None) for a in answers)
    return sorted(kinds.items(), key=lambda kind: (badness(kind[0]), -kind[1], kind[0].number))


def summary(answers, unread):
    refused, failing, passing = (sum(badness(a) == n for a in answers) for n in range(3))
    does, passes = "does" if failing == 1 else "do", "passes" if passing == 1 else "pass"
    tail = f", and {unread} that could not be read" if unread else ""
    return f"{counted(len(answers), 'image')}: {refused} refused, {failing} that {does} not pass, {passing} that {passes}{tail}"


def names_of(paths, shelf):
    """The names of one folder's files stand without it."""
    return [files.shown(os.path.relpath(path, shelf) if shelf else path) + ("/" if os.path.isdir(path) else "") for path in paths]


def passed_over(names):
    """The names passed over; of more than a few with one ending, the ending and their count."""
    endings = Counter(os.path.splitext(n)[1] for n in names)
    many = [e for e, n in endings.items() if e and n > MANY]
    return [n for n in names if os.path.splitext(n)[1] not in many] + [f"{endings[e]} named *{e}" for e in many]


def as_text(found, passed, unread, shelf):
    """The rows, the totals, and what was passed over."""
    names, answers = names_of([path for path, _ in found], shelf), [a for _, a in found]
    yield from columns([(name, " ".join(map(str, a)), meaning(a)) for name, a in zip(names, answers)])
    if answers:
        yield ""
    yield summary(answers, len(unread))
    yield from columns([(str(n), f"{a.word} {a.number}", meaning(a)) for a, n in totals(answers)], right=(0,))
    if passed:
        yield ""
        yield f"passed over, as no file ending in {' or '.join(ENDINGS)}: " + ", ".join(passed_over(names_of(passed, shelf)))


def as_json(found, passed, unread):
    for path, a in found:
        named = {"place" if a.word == "image" else "task": a.place}
        yield {"file": path, "answer": a.word, "number": a.number, **named, "meaning": meaning(a)}
    for a, n in totals(a for _, a in found):
        yield {"total": n, "answer": a.word, "number": a.number, "meaning": meaning(a)}
    for path in unread:
        yield {"not read": path}
    for path in passed:
        yield {"passed over": path}


def inventory(found, words):
    library.proved()
    taken, passed, unread = gather(words)
    read = [(path, None if image is None else answer(library.judge(image))) for path, image in files.images(taken)]
    answers = [(path, a) for path, a in read if a]
    unread += [path for path, a in read if not a]
    if "--json" in found:
        lines = (json.dumps(row) for row in as_json(answers, passed, unread))
    else:
        shelf = words[0] if len(words) == 1 and os.path.isdir(words[0]) else None
        lines = as_text(answers, passed, unread, shelf)
    for line in lines:
        say(line)
    if unread:
        return 1
    return 3 if "--strict" in found and any(badness(a) < 2 for _, a in answers) else 0
