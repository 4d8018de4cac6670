"""What the tests share: a folder of their own, and ./rack called in it."""
import os
import shutil
import subprocess
import tempfile
import unittest

from command import build

ROOT = os.path.dirname(os.path.dirname(os.path.dirname(os.path.realpath(__file__))))
RACK = os.path.join(ROOT, "rack")
EXAMPLES = os.path.join(ROOT, "examples")
SHELF = os.path.join(EXAMPLES, "inventory")
EXPECTED = os.path.join(os.path.dirname(os.path.realpath(__file__)), "expected")
PLAIN = {name: value for name, value in os.environ.items() if not name.startswith("PYTHON")}  # nothing that alters how Python prints
GOOD, REFUSED = os.path.join(SHELF, "stale-board-1.img"), os.path.join(SHELF, "second-table-03.img")


def contents(path):
    with open(path, "rb") as f:
        return f.read()


class Bench(unittest.TestCase):
    maxDiff = None

    @classmethod
    def setUpClass(cls):
        """What is not built yet is built before any call, which then says nothing of it."""
        cls.checker, cls.library = build.checker(), build.shared_object()

    def setUp(self):
        self.folder = tempfile.mkdtemp()
        self.addCleanup(shutil.rmtree, self.folder)

    def path(self, name):
        return os.path.join(self.folder, name)

    def put(self, name, data=b""):
        with open(self.path(name), "wb") as f:
            f.write(data)
        return self.path(name)

    def rack(self, *words, status=0, command=(RACK,), **how):
        """Calls ./rack and asks for its exit status; it never ends with a traceback."""
        pipes = {"stdin": subprocess.DEVNULL, "stdout": subprocess.PIPE, "stderr": subprocess.PIPE}
        how = {"cwd": self.folder, "env": PLAIN, "timeout": 300, **pipes, **how}
        done = subprocess.run([*command, *words], **how)
        done.out, done.err = ((text or b"").decode("utf-8", "surrogateescape") for text in (done.stdout, done.stderr))
        self.assertNotIn("Traceback", done.err)
        self.assertEqual(done.returncode, status, done.err)
        return done

    def assert_told(self, done, *parts):
        """One line on standard error, which has these parts."""
        self.assertTrue(done.err.startswith("rack: "), done.err)
        self.assertEqual(done.err.count("\n"), 1, done.err)
        for part in parts:
            self.assertIn(part, done.err)

    def image_of_example(self, name):
        """The image of a shipped text table."""
        self.rack("make", os.path.join(EXAMPLES, "tables", f"{name}.txt"), f"{name}.img")
        return self.path(f"{name}.img")

    def image_of(self, table, name="table.img"):
        """The image of a text table."""
        self.put("table.txt", table.encode())
        self.rack("make", "--force", "table.txt", name)
        return self.path(name)
