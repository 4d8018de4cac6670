"""What a build does, in a copy of the tree with a stand-in for the toolchain, which counts its calls and prints what the real one prints."""
import os
import pty
import re
import shutil
import signal
import subprocess
import time
from contextlib import contextmanager

from command import build
from command.tests.bench import GOOD, PLAIN, ROOT, Bench, contents

CRATES = "# a line for each crate\none:\ntwo: one\nother:\nrack: two\nrack_c staticlib: rack\nrackcheck: two\n"
RT = """\
#!/bin/sh
# in the place of rt: says what it would say in a crate's folder, and hands out the program or library that stands beside it
here=$(dirname "$0")
crate=$(basename "$(pwd)")
proved() {
    echo "rt: chose --jobs 2 for $1"
    echo "fn $1::something: proved"
    echo "logic=proved functions=1"
}
echo "$* in $crate" >>"$here/calls"
proved one
while [ -e "$here/hold" ]; do sleep 0.1; done
proved two
mkdir -p out
case $1 in
run) out=out/rackcheck ;;
*) out=out/librack_c.a && proved rack ;;
esac
if [ -e "$here/fails" ]; then
    echo half >"$out"
    echo "rt: chose --jobs 2 for $crate"
    echo "fn $crate::something: not proved"
    exit 1
fi
cp "$here/$(basename "$out")" "$out"
proved $crate
echo "rt: running $out"
"""


class Build(Bench):
    def setUp(self):
        """A tree with the command, two small crates, and tools of its own."""
        super().setUp()
        self.tree, self.tools = self.path("tree"), self.path("tools")
        for crate in ("one", "rack_c", "rackcheck"):
            os.makedirs(os.path.join(self.tree, "crates", crate, "src"))
        os.mkdir(self.tools)
        shutil.copytree(os.path.join(ROOT, "command"), os.path.join(self.tree, "command"), ignore=shutil.ignore_patterns("tests", "__pycache__"))
        shutil.copy(os.path.join(ROOT, "rack"), self.tree)
        self.source = self.put("tree/crates/one/src/lib.rt")
        self.put("tree/crates.txt", CRATES.encode())
        shutil.copy(self.checker, os.path.join(self.tools, "rackcheck"))
        shutil.copy(build.archive(), os.path.join(self.tools, "librack_c.a"))
        os.chmod(self.put("tools/rt", RT.encode()), 0o755)
        self.environment = {**PLAIN, "PATH": self.tools + ":" + os.environ["PATH"]}
        past = time.time() - 100
        for path in (self.source, os.path.join(self.tree, "crates.txt")):
            os.utime(path, (past, past))

    def call(self, *words, **how):
        return self.rack(*words, command=(os.path.join(self.tree, "rack"),), **{"env": self.environment, **how})

    def start(self, *words, **how):
        pipes = {"stdin": subprocess.DEVNULL, "stdout": subprocess.PIPE, "stderr": subprocess.PIPE}
        # where the tests run in the background an interrupt would be ignored
        heard = {"preexec_fn": lambda: signal.signal(signal.SIGINT, signal.SIG_DFL)}
        return subprocess.Popen([os.path.join(self.tree, "rack"), *words], env=self.environment, **{**pipes, **heard, **how})

    @contextmanager
    def held(self, *words, **how):
        """A call whose build stands still meanwhile."""
        self.put("tools/hold")
        started = self.start(*words, **how)
        while not self.calls():
            time.sleep(0.05)
        try:
            yield started
        finally:
            os.unlink(self.path("tools/hold"))

    def calls(self):
        try:
            return contents(os.path.join(self.tools, "calls")).decode().splitlines()
        except FileNotFoundError:
            return []

    def made(self):
        """The programs and libraries under target/ and in a crate's out/."""
        found = [os.path.join(folder, f) for top in ("target", "crates") for folder, _, names in os.walk(os.path.join(self.tree, top)) for f in names]
        found = sorted(os.path.relpath(path, self.tree) for path in found)
        return [path for path in found if not path.endswith("/lock") and (path.startswith("target/") or "/out/" in path)]

    def test_progress(self):
        """A line for each crate, of how many, with the seconds; on standard output the answer alone."""
        done = self.call("check", GOOD)
        self.assertEqual(done.out, contents(GOOD[:-3] + "out").decode())
        lines = done.err.splitlines()
        self.assertIn("the checking program, 3 crates;", lines[0])
        for line, text in zip(lines[1:4], ("1 of 3 crates, one", "2 of 3 crates, two", "3 of 3 crates, rackcheck")):
            self.assertRegex(line, rf"^rack: the checking program: {text} proved, \d+ s so far$")
        self.assertEqual(len(lines), 5)
        done = self.call("inventory", GOOD)
        self.assertRegex(done.err, r"rack: the library: 4 of 4 crates, rack_c proved, \d+ s so far\nrack: the library is proved, \d+ s\n")
        self.assertNotIn("rack:", done.out)

    def test_progress_on_a_terminal(self):
        """One line that renews, with the seconds that pass."""
        ours, theirs = pty.openpty()
        with self.held("check", GOOD, stderr=theirs) as started:
            time.sleep(2.2)
        started.communicate()
        os.close(theirs)
        said = os.read(ours, 65536).decode()
        os.close(ours)
        self.assertEqual(said.count("\n"), 1, said)
        self.assertLess(max(map(len, said.split("\r"))), 80)
        self.assertGreater(len(set(re.findall(r"\rrack: the checking program: 1 of 3 crates, one proved, (\d) s so far", said))), 1, said)
        self.assertTrue(re.search(r"\r *\rrack: the checking program is proved, \d+ s\r\n$", said), said)

    def test_only_what_is_old_is_built(self):
        self.call("check", GOOD)
        self.assertEqual(self.call("check", GOOD).err, "")
        self.assertEqual(self.calls(), ["run in rackcheck"])
        self.call("show", GOOD)
        self.assertEqual(self.call("show", GOOD).err, "")
        self.assertEqual(self.calls(), ["run in rackcheck", "lib in rack_c"])
        os.utime(self.source)
        self.call("check", GOOD)
        self.call("show", GOOD)
        self.assertEqual(self.calls(), 2 * ["run in rackcheck", "lib in rack_c"])

    def test_what_the_toolchain_makes_is_no_source(self):
        self.call("check", GOOD)
        for name in ("rlib", "rackcheck"):
            self.put(f"tree/crates/rackcheck/out/{name}")
        self.assertEqual(self.call("check", GOOD).err, "")
        self.assertEqual(self.calls(), ["run in rackcheck"])

    def test_crates_that_were_proved_before(self):
        """Of these the toolchain says nothing, and the count does not wait for them."""
        self.put("tools/rt", RT.replace("proved one\n", "").encode())
        done = self.call("check", GOOD)
        for line, text in zip(done.err.splitlines()[1:3], ("1 of 3 crates, two", "2 of 3 crates, rackcheck")):
            self.assertRegex(line, rf"^rack: the checking program: {text} proved, \d+ s so far$")
        self.assertRegex(done.err, r"\nrack: the checking program is proved, \d+ s\n$")

    def test_the_library_for_c(self):
        """It is made beside the shared object, under its own name, and made again where it was removed."""
        self.call("show", GOOD)
        archive = os.path.join(self.tree, "target", "staticlib", "librack.a")
        self.assertEqual(contents(archive), contents(os.path.join(self.tools, "librack_c.a")))
        os.unlink(archive)
        how = {"cwd": self.tree, "env": self.environment, "stdin": subprocess.DEVNULL, "stdout": subprocess.PIPE, "stderr": subprocess.PIPE}
        done = subprocess.run(["python3", "-B", "-m", "command.build"], **how)
        self.assertEqual((done.returncode, done.stdout.decode()), (0, archive + "\n"))
        self.assertTrue(os.path.exists(archive))
        self.assertEqual(self.calls(), 2 * ["lib in rack_c"])

    def test_a_source_that_changes_meanwhile(self):
        with self.held("show", GOOD) as started:
            os.utime(self.source)
        started.communicate()
        self.call("show", GOOD)
        self.assertEqual(len(self.calls()), 2)

    def test_a_failed_build_leaves_nothing(self):
        """Neither where nothing was built before, nor where something was; and the next call tries again."""
        for words, crate, name in ((("check", GOOD), "rackcheck", "rackcheck"), (("show", GOOD), "rack_c", "librack")):
            for _ in range(2):
                self.put("tools/fails")
                done = self.call(*words, status=1)
                self.assertEqual(done.out, "")
                self.assertIn("could not be built:\n", done.err)
                self.assertIn(f"fn {crate}::something: not proved", done.err)
                self.assertEqual([path for path in self.made() if name in os.path.basename(path)], [])
                os.unlink(self.path("tools/fails"))
                self.assertNotEqual(self.call(*words).out, "")
                os.utime(self.source)

    def test_no_shared_object(self):
        """The C compiler fails half way, or is not there."""
        os.chmod(self.put("tools/cc", b'#!/bin/sh\nwhile [ "$1" != -o ]; do shift; done; echo half >"$2"; echo "cc: no room"; exit 1\n'), 0o755)
        done = self.call("inventory", GOOD, status=1)
        self.assertIn("the C compiler made no shared object:\ncc: no room", done.err)
        self.assertEqual(self.made(), [])
        os.unlink(self.path("tools/cc"))
        for name in ("python3", "sh", "env", "dirname", "basename", "cat", "sleep", "mkdir", "cp"):
            os.symlink(shutil.which(name), os.path.join(self.tools, name))
        done = self.call("inventory", GOOD, status=1, env={**PLAIN, "PATH": self.tools})
        self.assertIn("there is no C compiler 'cc' on the PATH", done.err)
        self.assertEqual(self.made(), [])

    def test_no_toolchain(self):
        os.unlink(self.path("tools/rt"))
        for name in ("python3", "env"):
            os.symlink(shutil.which(name), os.path.join(self.tools, name))
        done = self.call("check", GOOD, status=1, env={**PLAIN, "PATH": self.tools})
        self.assert_told(done, "the Rattle toolchain's command 'rt' is not on the PATH")

    def test_a_program_that_was_removed(self):
        """The toolchain goes by its stamp; without the program the stamp goes too."""
        os.makedirs(os.path.join(self.tree, "crates", "rackcheck", "out"))
        self.put("tree/crates/rackcheck/out/rackcheck.stamp", b"proved")
        self.call("check", GOOD)
        self.assertNotIn("crates/rackcheck/out/rackcheck.stamp", self.made())

    def test_two_at_once(self):
        """The second waits for the first, and builds nothing."""
        with self.held("check", GOOD) as first:
            second = self.start("check", GOOD)
            self.assertEqual(second.stderr.readline(), b"rack: another build is under way; waiting for it\n")
        said = [p.communicate() for p in (first, second)]
        self.assertEqual([out for out, _ in said], 2 * [contents(GOOD[:-3] + "out")])
        self.assertEqual(self.calls(), ["run in rackcheck"])

    def test_where_nothing_can_be_written(self):
        self.put("tree/target", b"in the way")
        done = self.call("check", GOOD, status=1)
        self.assert_told(done, "the checking program could not be built: ", "/target")

    def test_interrupted(self):
        with self.held("check", GOOD, start_new_session=True) as started:
            time.sleep(0.2)
            os.killpg(started.pid, signal.SIGINT)
            out, err = started.communicate()
        self.assertEqual((started.returncode, out), (130, b""))
        self.assertTrue(err.endswith(b"rack: interrupted\n"), err)
        self.assertEqual(self.made(), [])
