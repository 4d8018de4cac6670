"""What cannot be read, used or written: a line with the name, the others still answered, exit 1."""
import os
import resource
import sys

from command.tests.bench import EXAMPLES, GOOD, PLAIN, RACK, REFUSED, SHELF, Bench, contents

LIST, IN_DP1 = os.path.join(EXAMPLES, "linux", "whole.lin"), os.path.join(EXAMPLES, "linux", "left-out.img")

# each command that reads a file, with the file in the place of {}
READERS = (
    ("check", "{}"),
    ("check", "--explain", "{}"),
    ("inventory", "{}"),
    ("inventory", "--json", "{}"),
    ("clean", "{}", "new"),
    ("picture", "{}", "new"),
    ("play", "{}", os.path.join(SHELF, "README.md")),
    ("play", GOOD, "{}"),
    ("make", "{}", "new"),
    ("show", "{}"),
    ("import", "{}", "new"),
    ("export", "{}", "new"),
)
WRITERS = (("clean", GOOD), ("picture", GOOD), ("make", "table.txt"), ("import", LIST), ("export", IN_DP1))
NO_OVERRIDE = ("setpriv", "--bounding-set=-dac_override,-dac_read_search")


class Reading(Bench):
    def each_reader(self, name, why, **how):
        for words in READERS:
            if words[0] == "inventory" and os.path.isdir(name):
                continue
            with self.subTest(" ".join(words)):
                done = self.rack(*(w.format(name) for w in words), status=1, **how)
                self.assert_told(done, name, why)
                self.assertFalse(os.path.exists(self.path("new")))

    def test_missing(self):
        self.each_reader("none.img", "No such file or directory")

    def test_folder(self):
        self.each_reader(SHELF, "Is a directory")

    def test_link_to_nowhere(self):
        os.symlink("gone", self.path("link.img"))
        self.each_reader("link.img", "a symbolic link to nowhere")

    def test_unreadable(self):
        """Reading a process's own memory from its beginning is refused to root too."""
        self.each_reader("/proc/self/mem", "Input/output error")

    def test_without_permission(self):
        """Root may read anything, and so gives that right away first."""
        os.chmod(self.put("shut.img"), 0)
        command = (RACK,) if os.geteuid() else (*NO_OVERRIDE, RACK)
        try:
            self.rack("help", command=command)
        except (OSError, AssertionError) as e:
            why = f"root cannot give up the right to read everything here: {e}"
            print(f"command: SKIPPED, a file without permission: {why}", file=sys.stderr)
            self.skipTest(why)
        self.each_reader("shut.img", "Permission denied", command=command)

    def test_the_others_are_answered(self):
        os.symlink("gone", self.path("link.img"))
        bad = ["none.img", self.folder, "link.img", "/proc/self/mem"]
        done = self.rack("check", *bad[:2], GOOD, *bad[2:], REFUSED, status=1)
        self.assertEqual(done.out, f"\n== {GOOD}\n" + contents(GOOD[:-3] + "out").decode() + f"\n== {REFUSED}\nimage 3 6\n")
        self.assertEqual([line.split(": ")[1] for line in done.err.splitlines()], bad)
        done = self.rack("inventory", "none.img", GOOD, "link.img", REFUSED, status=1)
        self.assertIn(f"{GOOD}    verdict 0 0  done: the table passes\n", done.out)
        self.assertIn(f"{REFUSED}  image 3 6    used record after an erased one\n", done.out)
        self.assertIn("2 images: 1 refused, 0 that do not pass, 1 that passes, and 2 that could not be read\n", done.out)
        self.assertEqual(len(done.err.splitlines()), 2)

    def test_trouble_counts_before_strict(self):
        for command in ("check", "inventory"):
            self.rack(command, "--strict", GOOD)
            self.rack(command, "--strict", GOOD, REFUSED, status=3)
            self.rack(command, "--strict", REFUSED, "none.img", status=1)
            self.rack(command, "--strict", "none.img", REFUSED, status=1)

    def test_empty_and_long(self):
        self.put("empty.img")
        with open(self.path("long.img"), "wb") as f:
            f.truncate(10_000_000)
        for name, answer in (("empty.img", "image 7 0"), ("long.img", "image 1 0"), ("/dev/zero", "image 1 0")):
            self.assertEqual(self.rack("check", name).out, answer + "\n")
            self.assertIn(answer, self.rack("inventory", name).out)
            for words in (("clean", name, "new"), ("picture", name, "new"), ("export", name, "new"), ("show", name)):
                self.assert_told(self.rack(*words, status=1), name, f"refused with {answer[6]} at record 0")
        self.assertIn("The image has 0 bytes and 0 records", self.rack("check", "--explain", "empty.img").out)
        self.assertIn("The image has more than 4,096 bytes.", self.rack("check", "--explain", "long.img").out)

    def test_names(self):
        """Names that are no text, and such as would break a line."""
        for name in (b"caf\xe9.img", b"two\nlines.img", "größe.img".encode()):
            with open(os.path.join(self.folder.encode(), name), "wb") as f:
                f.write(contents(GOOD))
        for locale in ("C", "C.UTF-8"):
            done = self.rack("inventory", self.folder, env={**PLAIN, "LC_ALL": locale, "PYTHONIOENCODING": "ascii"})
            self.assertEqual([line.split("  ")[0] for line in done.out.splitlines()[:3]], ["caf\udce9.img", "größe.img", "two\\nlines.img"])
            self.rack("inventory", "--json", self.folder, env={**PLAIN, "LC_ALL": locale})
        self.rack("picture", b"caf\xe9.img", "out.svg")

    def test_a_script_or_table_that_is_no_text(self):
        self.put("bytes", b"\xff\xfe\x00")
        self.put("long", b"#" * 1_000_001)
        for words in (("play", GOOD, "{}"), ("make", "{}", "new")):
            for name, why in (("bytes", "not a text file"), ("long", "longer than")):
                self.assert_told(self.rack(*(w.format(name) for w in words), status=1), name, why)

    def each_line(self, words, first, lines):
        """What is wrong with a second line is told by its number, and nothing is written."""
        for line, why in lines:
            with self.subTest(line):
                self.put("bad.txt", f"{first}\n{line}\n".encode())
                self.assert_told(self.rack(*words, status=1), "bad.txt, line 2: ", why)
                self.assertFalse(os.path.exists(self.path("new")))

    def test_lines_of_a_table(self):
        lines = (
            ("task DP4 9 2000 1000", "queue 'DP4' is none of DP1, DP2, FP"),
            ("task DP1 9 2000 2001", "cost 2001 is not from 1 to 2,000"),
            ("task DP1 9 999 1", "period 999 is not from 1,000 to 100,000,000"),
            ("task DP1 70000 2000 1", "number 70000 is not from 1 to 65,535"),
            ("task DP1 nine 2000 1", "number 'nine' is not a whole number"),
            ("task DP1 9 2000", "a task has a queue, a number, a period and a cost"),
            ("task FP 7 3000 1", "task number 7 is used twice"),
            ("task DP1 6 2000 1", "tasks come by rising period"),
            ("board 1 2 3", "a board has nine figures, not 3"),
            ("board 1 2 3 4 5 6 7 8 9", "there is at most one board, and it comes first"),
            ("lock 1", "'lock' is none of board, task, semaphore"),
        )
        self.each_line(("make", "bad.txt", "new"), "task DP1 7 2000 1000", lines)

    def test_deadlines_of_a_table(self):
        said = "is not from 1,000 to 1,999, the cost to one less than the period"
        shape = "a task has a queue, a number, a period and a cost, and may have 'deadline' and a number behind them"
        lines = (
            ("task DP1 9 2000 1000 deadline 1500", "a deadline is for FP tasks, not for DP1"),
            ("task DP2 9 2000 1000 deadline 1500", "a deadline is for FP tasks, not for DP2"),
            ("task FP 9 2000 1000 deadline 2000", f"deadline 2000 {said}"),
            ("task FP 9 2000 1000 deadline 2001", f"deadline 2001 {said}"),
            ("task FP 9 2000 1000 deadline 999", f"deadline 999 {said}"),
            ("task FP 9 2000 1000 deadline 0", f"deadline 0 {said}"),
            ("task FP 9 2000 1000 deadline " + "9" * 5000, said),
            ("task FP 9 2000 2000 deadline 2000", "there is no room for a deadline: it would be from 2,000 to 1,999"),
            ("task FP 9 2000 1000 deadline soon", "deadline 'soon' is not a whole number"),
            ("task FP 9 2000 1000 deadline -1", "deadline '-1' is not a whole number"),
            ("task FP 9 2000 1000 deadline", "deadline wants a number behind it"),
            ("task FP 9 2000 1000 deadline 1500 deadline 1600", "deadline is said twice"),
            ("task FP 9 2000 1000 deadline 1500 1600", shape),
            ("task FP 9 2000 1000 1500", shape),
            ("task FP 9 2000 deadline 1500", shape),
            ("semaphore 1 deadline 1500", "a semaphore has a number and nothing more"),
        )
        self.each_line(("make", "bad.txt", "new"), "task DP1 7 2000 1000", lines)

    def test_lines_of_a_script(self):
        lines = (
            ("realease 7 0", "'realease' is none of release, signal"),
            ("release 7", "release takes a task and a time"),
            ("complete 7", "complete takes nothing more"),
            ("acquire 70000", "semaphore 70000 is not from 0 to 65,535"),
            ("release 7 -1", "time '-1' is not a whole number"),
            ("release 7 " + "9" * 5000, "is not from 0 to 18,446,744,073,709,551,615"),
        )
        self.each_line(("play", GOOD, "bad.txt"), "release 7 0", lines)

    def test_texts_without_a_line(self):
        self.put("bad.txt", b"# nothing\n")
        self.assert_told(self.rack("play", GOOD, "bad.txt", status=1), "bad.txt: there is no call")
        self.assert_told(self.rack("make", "bad.txt", "new", status=1), "bad.txt: there is no task")
        self.assertFalse(os.path.exists(self.path("new")))


class Writing(Bench):
    def setUp(self):
        super().setUp()
        self.put("table.txt", b"task DP1 7 2000 1000\n")

    def test_nothing_is_written_over(self):
        for words in WRITERS:
            self.put("there", b"old")
            self.assert_told(self.rack(*words, "there", status=1), "there is there already; --force writes over it")
            self.assertEqual(contents(self.path("there")), b"old")
            os.chmod(self.path("there"), 0o640)
            self.rack(*words, "there", "--force")
            self.assertNotEqual(contents(self.path("there")), b"old")
            self.assertEqual(os.stat(self.path("there")).st_mode & 0o777, 0o640)
            self.assertEqual(sorted(os.listdir(self.folder)), ["table.txt", "there"])

    def test_a_link_is_followed(self):
        self.put("there", b"old")
        os.symlink("there", self.path("link"))
        self.rack("clean", "--force", GOOD, "link")
        self.assertTrue(os.path.islink(self.path("link")))
        self.assertEqual(contents(self.path("there")), contents(GOOD))

    def test_an_image_onto_itself(self):
        self.put("own.img", contents(GOOD))
        self.rack("clean", "--force", "own.img", "own.img")
        self.assertEqual(contents(self.path("own.img")), contents(GOOD))

    def test_where_nothing_can_be_written(self):
        for words in WRITERS:
            for force in ((), ("--force",)):
                self.assert_told(self.rack(*words, *force, "no/where", status=1), "no/where", "No such file or directory")
                self.assert_told(self.rack(*words, *force, ".", status=1), ": .: Is a directory")
            self.assert_told(self.rack(*words, "--force", "/dev/full", status=1), "/dev/full", "No space left on device")
        self.assertEqual(os.listdir(self.folder), ["table.txt"])

    def test_a_full_disk_leaves_nothing(self):
        """No file may grow, as on a full disk."""
        limit = {"preexec_fn": lambda: resource.setrlimit(resource.RLIMIT_FSIZE, (0, 0))}
        for words in WRITERS:
            self.assert_told(self.rack(*words, "new", status=1, **limit), "new", "File too large")
            self.put("there", b"old")
            self.assert_told(self.rack(*words, "--force", "there", status=1, **limit), "there", "File too large")
            self.assertEqual(contents(self.path("there")), b"old")
            self.assertEqual(sorted(os.listdir(self.folder)), ["table.txt", "there"])
            os.unlink(self.path("there"))


class Saying(Bench):
    """Standard output that takes no more: one line, exit 1."""

    def calls(self):
        script = self.put("script.txt", b"release 1 0\n")
        yield from (("check", GOOD), ("check", "--explain", GOOD), ("inventory", SHELF), ("inventory", "--json", SHELF))
        yield from (("show", GOOD), ("play", GOOD, script), ("clean", "--force", GOOD, "new"), ("help",), ("help", "check"))
        yield from (("import", "--force", LIST, "new"), ("export", "--force", IN_DP1, "new"))

    def each_call(self, why, **how):
        for words in self.calls():
            with self.subTest(" ".join(words)):
                self.assert_told(self.rack(*words, status=1, **how), why)

    def test_full_disk(self):
        with open("/dev/full", "wb") as full:
            self.each_call("standard output: No space left on device", stdout=full)
            self.each_call("standard output: No space left on device", stdout=full, env={**PLAIN, "PYTHONUNBUFFERED": "1"})

    def test_closed_pipe(self):
        read, write = os.pipe()
        os.close(read)
        self.each_call("standard output was closed before all was said", stdout=write)
        os.close(write)

    def test_no_output(self):
        self.each_call("standard output is closed", command=("sh", "-c", 'exec "$0" "$@" >&-', RACK))

    def test_standard_error_closed(self):
        done = self.rack("check", "none.img", GOOD, status=1, command=("sh", "-c", 'exec "$0" "$@" 2>&-', RACK))
        self.assertIn("verdict 0 0", done.out)
        self.assertNotIn("none.img:", done.out)
