"""The proved programs, built when they are missing or older than their sources, with progress on standard error. What the toolchain makes in a crate's
out/ is taken over into target/ only once all of it is proved. `python3 -m command.build` at the top makes the library for C and Rust alone."""
import fcntl
import os
import re
import shutil
import subprocess
import sys
import threading
import time

from command.output import Trouble, murmur

ROOT = os.path.dirname(os.path.dirname(os.path.realpath(__file__)))
TARGET = os.path.join(ROOT, "target")
CRATES = os.path.join(ROOT, "crates")
LIST = os.path.join(ROOT, "crates.txt")
LOCK = os.path.join(TARGET, "command", "lock")
CHECKER = os.path.join(TARGET, "command", "rackcheck")
SHARED = os.path.join(TARGET, "command", "librack.so")
ARCHIVE = os.path.join(TARGET, "staticlib", "librack.a")
# what the toolchain says of a crate where it begins with it, and at the end where it is proved
BEGINS, PROVED = re.compile(r"rt: chose --jobs \d+ for (\w+)$"), re.compile(r"logic=proved ")


def checker():
    """The path of 01's checking program."""
    made([CHECKER], "the checking program", "rackcheck", ["rt", "run"], "rackcheck", [shutil.copy])
    return CHECKER


def shared_object():
    """The path of the proved library as a shared object."""
    library()
    return SHARED


def archive():
    """The path of the proved library for C and Rust, which include/rack.h declares."""
    library()
    return ARCHIVE


def library():
    made([SHARED, ARCHIVE], "the library", "rack_c", ["rt", "lib"], "librack_c.a", [link, shutil.copy])


def link(archive, target):
    words = ["cc", "-shared", "-o", target, "-Wl,--whole-archive", archive, "-Wl,--no-whole-archive", "-Wl,-z,defs", "-Wl,-z,text"]
    try:
        done = subprocess.run(words, stdin=subprocess.DEVNULL, stdout=subprocess.PIPE, stderr=subprocess.STDOUT)
    except FileNotFoundError:
        raise Trouble("there is no C compiler 'cc' on the PATH")
    if done.returncode:
        raise Trouble("the C compiler made no shared object:\n" + last_lines(done.stdout.decode("utf-8", "replace").splitlines()))


def made(paths, what, crate, words, output, take_overs):
    """Sees to it that the paths are current. Where one is not, all are built: `words` in the crate's folder make out/OUTPUT, and each of `take_overs`
    makes one path of it."""
    try:
        if current(paths):
            return
        if not shutil.which(words[0]):
            raise Trouble(f"the Rattle toolchain's command '{words[0]}' is not on the PATH")
        for path in (LOCK, *paths):
            os.makedirs(os.path.dirname(path), exist_ok=True)
        with open(LOCK, "w") as lock:
            alone(lock)
            if not current(paths):
                renew(paths, what, crate, words, os.path.join(CRATES, crate, "out", output), take_overs, lock)
    except OSError as e:
        raise Trouble(f"{what} could not be built: {e.filename or TARGET}: {e.strerror or e}")


def current(paths):
    try:
        return min(os.stat(path).st_mtime for path in paths) >= newest_source()
    except FileNotFoundError:
        return False


def newest_source():
    """The time of the newest file of the crates, but for what the toolchain makes in their out/ and for edits that it must refuse."""
    newest = os.path.getmtime(LIST)
    for folder, names, files in os.walk(CRATES):
        names[:] = [n for n in names if n not in ("must-fail", "out")]
        newest = max([newest] + [os.lstat(os.path.join(folder, f)).st_mtime for f in files])
    return newest


def alone(lock):
    """One build at a time. The toolchain inherits the lock, so that a build that outlives its command is waited for too."""
    try:
        fcntl.flock(lock, fcntl.LOCK_EX | fcntl.LOCK_NB)
    except BlockingIOError:
        murmur("rack: another build is under way; waiting for it\n")
        fcntl.flock(lock, fcntl.LOCK_EX)


def renew(paths, what, crate, words, output, take_overs, lock):
    """Builds to names of its own and renames at the end. Their time is that of the beginning: a source that changes meanwhile is newer."""
    began, fresh = time.time(), [path + ".new" for path in paths]
    if not os.path.exists(output):
        remove(output + ".stamp")  # else the toolchain might hold it for made
    try:
        run(what, crate, words, lock)
        for path, take_over in zip(fresh, take_overs):
            take_over(output, path)
            os.utime(path, (began, began))
        for path, named in zip(fresh, paths):
            os.replace(path, named)
    except BaseException:
        for half in (*fresh, *paths, output):
            remove(half)
        raise


def remove(path):
    if os.path.lexists(path):
        os.unlink(path)


def run(what, crate, words, lock):
    """Runs the toolchain in a crate's folder and follows what it prints. A program that it runs at the end finds no input."""
    pipes = {"stdin": subprocess.DEVNULL, "stdout": subprocess.PIPE, "stderr": subprocess.STDOUT}
    made, said = subprocess.Popen(words, cwd=os.path.join(CRATES, crate), pass_fds=[lock.fileno()], **pipes), []
    with Progress(what, closure(crate)) as progress, made.stdout as lines:
        for raw in lines:
            line = raw.decode("utf-8", "replace").rstrip("\n")
            if not progress.follow(line):
                said.append(line)
        progress.ended_well = made.wait() == 0
    if not progress.ended_well:
        raise Trouble(f"{what} could not be built:\n" + last_lines(said))


def last_lines(lines):
    return "\n".join(lines[-15:])


def closure(name):
    """A crate and all that it stands on, by crates.txt."""
    with open(LIST, encoding="utf-8") as f:
        lines = [line.split("#")[0] for line in f]
    deps = {line.split()[0].rstrip(":"): line.split(":")[1].split() for line in lines if ":" in line}
    reached, todo = set(), [name]
    while todo:
        crate = todo.pop()
        if crate in deps and crate not in reached:
            reached.add(crate)
            todo += deps[crate]
    return reached


def room():
    """How many characters the terminal has in a line, less the last, which would break it."""
    try:
        return (os.get_terminal_size(sys.stderr.fileno()).columns or 80) - 1
    except OSError:
        return 79


class Progress:
    """One line that renews on a terminal, a line for each crate elsewhere."""

    def __init__(self, what, crates):
        self.what, self.left, self.count = what, set(crates), len(crates)
        self.began, self.at, self.width = time.monotonic(), "", 0
        self.crate, self.ended_well = None, False
        self.terminal = sys.stderr is not None and sys.stderr.isatty()
        self.ended = threading.Event()
        self.ticker = threading.Thread(target=self.tick, daemon=True)

    def __enter__(self):
        self.at = f"{self.what}: 0 of {self.count} crates, may take minutes"
        if self.terminal:
            self.ticker.start()
        else:
            self.tell(f"proving and building {self.what}, {self.count} crates; this may take some minutes the first time")
        return self

    def __exit__(self, *error):
        self.ended.set()
        if self.terminal:
            self.ticker.join()
            murmur("\r" + " " * self.width + "\r")
        if self.ended_well:
            self.tell(f"{self.what} is proved, {self.seconds()} s")

    def seconds(self):
        return int(time.monotonic() - self.began)

    def tell(self, text):
        murmur(f"rack: {text}\n")

    def follow(self, line):
        """Takes a line of the toolchain's, and gives whether it tells of a crate that is proved, which is a step. Of a crate that was proved before and
        has not changed the toolchain says nothing."""
        begins = BEGINS.match(line)
        if begins:
            self.crate = begins.group(1)
        crate = self.crate
        if not PROVED.match(line) or crate not in self.left:
            return False
        self.left.discard(crate)
        self.at = f"{self.what}: {self.count - len(self.left)} of {self.count} crates, {crate} proved"
        if not self.terminal:
            self.tell(f"{self.at}, {self.seconds()} s so far")
        return True

    def tick(self):
        """Renews the line, cut to the terminal's width."""
        waiting = True
        while waiting:
            text = f"rack: {self.at}, {self.seconds()} s so far"[: room()]
            murmur("\r" + text.ljust(self.width))
            self.width = len(text)
            waiting = not self.ended.wait(0.5)


if __name__ == "__main__":
    try:
        print(archive())
    except Trouble as e:
        sys.exit(f"rack: {e}")
