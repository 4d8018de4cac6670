"""Every command that README shows is run as printed, and what it prints is compared."""
import os
import re
import subprocess

from command.commands import COMMANDS
from command.tests.bench import EXAMPLES, RACK, ROOT, Bench, contents

TWO_COMMANDS = """\
    ./rack check examples/inventory/stale-board-1.img     # proves and builds the checking program, then runs it on a shipped image
    .ci/run                                               # the gate: all proofs from nothing, edits that must be refused, all tests
"""


def readme():
    return contents(os.path.join(ROOT, "README.md")).decode("utf-8")


def examples():
    """Each command of README's console blocks with what is printed below it."""
    for block in re.findall(r"^```console\n(.*?)^```$", readme(), re.M | re.S):
        for part in re.split(r"^\$ ", block, flags=re.M)[1:]:
            command, _, printed = part.partition("\n")
            yield command, printed


class Readme(Bench):
    def setUp(self):
        super().setUp()
        os.symlink(RACK, self.path("rack"))
        os.symlink(EXAMPLES, self.path("examples"))

    def shell(self, command):
        how = {"stdin": subprocess.DEVNULL, "stdout": subprocess.PIPE, "stderr": subprocess.STDOUT}
        return subprocess.run(command, shell=True, cwd=self.folder, **how).stdout.decode("utf-8")

    def test_each_example(self):
        for command, printed in examples():
            with self.subTest(command):
                self.assertEqual(self.shell(command), printed)

    def test_each_command_has_an_example(self):
        shown = {command.split()[1] for command, _ in examples() if command.startswith("./rack ")}
        self.assertEqual(shown, {c.name for c in COMMANDS} | {"help"})

    def test_the_two_commands(self):
        text = readme()
        self.assertIn(TWO_COMMANDS, text)
        printed = self.shell("./rack check examples/inventory/stale-board-1.img")
        self.assertIn("\n\n" + "".join(f"    {line}\n" for line in printed.splitlines()) + "\n", text)

    def test_the_picture(self):
        self.assertIn("(examples/pictures/stale-board-2.svg)", readme())
