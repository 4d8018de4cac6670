"""What the commands say of images that can be read, against stored answers and against numbers worked out here anew."""
import glob
import json
import os
import re
import xml.etree.ElementTree
from fractions import Fraction

from command.library import JUDGE_BYTES
from command.linux import ATTR
from command.numbers import MEANING
from command.tests.bench import EXAMPLES, EXPECTED, GOOD, REFUSED, ROOT, SHELF, Bench, contents

IMAGES = sorted(glob.glob(os.path.join(SHELF, "*.img")))
ZEROS = "board 0 0 0 0 0 0 0 0 0\n"
# a task that fits its deadline to the tick: its own cost behind that of the other
GUARD = "task FP 7 2000 1000 deadline 1500\ntask FP 9 3000 100 deadline 1100\n"


def stored(name):
    return contents(os.path.join(EXPECTED, name)).decode("utf-8")


class Numbers(Bench):
    def test_each_number_of_the_proved_code_has_a_meaning(self):
        sources = [("table", "refusals.rt"), ("executive", "calls.rt")]
        text = "".join(contents(os.path.join(ROOT, "crates", crate, "src", name)).decode("utf-8") for crate, name in sources)
        self.assertEqual(set(map(int, re.findall(r"^    \w+ = (\d+),$", text, re.M))), set(MEANING))


class Boundary(Bench):
    def test_lengths(self):
        header = contents(os.path.join(ROOT, "include", "rack.h")).decode("utf-8")
        self.assertIn(f"#define RACK_JUDGE_BYTES {JUDGE_BYTES}\n", header)
        self.assertIn(f"#define RACK_LIST_RECORD {ATTR.size}\n", header)


class Explain(Bench):
    def explained(self, path):
        return self.rack("check", "--explain", path).out

    def test_behind_each_answer_of_the_inventory(self):
        """The answer as the checking program prints it, then its meaning and what it names."""
        parts = ("\n" + self.rack("check", "--explain", *IMAGES).out).split("\n== ")[1:]
        self.assertEqual(len(parts), len(IMAGES))
        for path, part in zip(IMAGES, parts):
            (name, out), answer = part.split("\n", 1), contents(path[:-3] + "out").decode()
            word, number, place = answer.splitlines()[-1].split()
            self.assertEqual(name, path)
            self.assertTrue(out.startswith(answer + "\n"), path)
            self.assertIn(f'\n{number} means "{MEANING[int(number)]}"', out)
            if word == "image":
                record = contents(path)[32 * int(place) :][:32]
                self.assertIn(f"It names record {place}, counted from 0, at bytes {32 * int(place)} to {32 * int(place) + 31}: ", out)
                self.assertIn(f"    {record[:16].hex(' ')}\n    {record[16:].hex(' ')}\n", out)
            elif place != "0":
                self.assertIn(f"It names task {place}, the first in table order at which it arises: ", out)

    def test_rows(self):
        """Cost, charge, load and share of every task, and the sums, worked out from the image and the checking program's charges."""
        for path in [p for p in IMAGES if contents(p[:-3] + "out").startswith(b"task")]:
            out, fields, sums = self.explained(path), {}, {}
            rows = out.split(" load/period\n")[1].splitlines()
            for at in range(0, os.path.getsize(path), 32):
                record = contents(path)[at : at + 32]
                if record[0] == 1:
                    fields[int.from_bytes(record[2:4], "little")] = [int.from_bytes(record[a : a + 4], "little") for a in (4, 8)]
            for number, queue, charge in re.findall(r"^task (\d+) (\d) (\d+)$", out, re.M):
                period, cost = fields[int(number)]
                share = Fraction(cost + int(charge), period)
                numbers = [f"{n:,}" for n in (period, cost, int(charge), cost + int(charge))]
                row = next(line.split() for line in rows if line.split()[:1] == [number])
                self.assertEqual(row[:6], [number, ("DP1", "DP2", "FP")[int(queue) - 1], *numbers])
                self.assert_percent(row[6], share)
                for name, last in (("DP1", 1), ("DP1 and DP2", 2), ("all tasks", 3)):
                    sums[name] = sums.get(name, 0) + (share if int(queue) <= last else 0)
            for name, total in sums.items():
                shown, above = re.search(rf"(?m)^{name} +\d+  (\S+) %(, above 100 %)?(?:  <-.*)?$", out).groups()
                self.assert_percent(shown, total)
                self.assertEqual(above is not None, total > 1)

    def assert_percent(self, shown, share):
        self.assertLessEqual(abs(Fraction(shown) - share * 100), Fraction(1, 200))

    def test_whose_figures(self):
        self.assertIn("The figures are the image's own:\n    DP block 0, ", self.explained(os.path.join(SHELF, "stale-board-3.img")))
        self.assertIn("The figures are the built-in ones, as there is no board record.\n", self.explained(os.path.join(SHELF, "stale-board-4.img")))

    def test_sums_beside_one(self):
        """Never 100.00 % for what is not 100 %, nor 0.00 % for what is not 0."""
        exact = self.explained(self.image_of(ZEROS + "task DP1 7 2000 1000\ntask DP1 9 2000 1000\n"))
        self.assertRegex(exact, r"(?m)^DP1 +2  100\.00 %$")
        above = self.explained(self.image_of(ZEROS + "task DP1 7 1000000 999999\ntask DP1 9 100000000 101\n"))
        self.assertRegex(above, r"(?m)^DP1 +2  100\.01 %, above 100 %  <- DP1 over full$")
        self.assertIn("verdict 11 0", above)
        below = self.explained(self.image_of(ZEROS + "task DP1 7 1000000 999999\ntask DP1 9 100000000 1\n"))
        self.assertRegex(below, r"(?m)^DP1 +2  99\.99 %$")
        self.assertIn("<0.01 %", below)

    def test_lengths(self):
        self.put("33", bytes(33))
        self.assertEqual(self.explained("33"), stored("length-33.txt"))
        self.put("erased", b"\xff" * 64)
        self.assertEqual(self.explained("erased"), stored("all-erased.txt"))

    def test_a_record_of_no_kind(self):
        self.put("kind", bytes([9]) + bytes(31))
        self.assertEqual(self.explained("kind"), stored("unknown-kind.txt"))

    def test_a_task_is_named_and_marked(self):
        self.assertEqual(self.explained(os.path.join(SHELF, "stale-board-6.img")), stored("stale-board-6.txt"))

    def test_a_deadline(self):
        self.assertEqual(self.explained(self.image_of_example("pulse-guard-late")), stored("pulse-guard-late.txt"))
        self.assertNotIn("deadline", self.explained(self.image_of_example("pulse-guard")))

    def test_a_deadline_that_is_refused(self):
        """At the period, where it would be 0."""
        image = bytearray(contents(self.image_of(ZEROS + GUARD)))
        image[64 + 12 : 64 + 16] = (3000).to_bytes(4, "little")
        out = self.explained(self.put("refused.img", image))
        self.assertTrue(out.startswith("image 4 2\n"), out)
        self.assertIn(": a task record: queue 3 (FP), number 9, period 3,000, cost 100, deadline 3,000.\n", out)


class Inventory(Bench):
    def test_a_folder(self):
        """In name order, passing over what is no image and saying so; a link to nowhere is told."""
        for name in ("b.img", "A.BIN", "notes.txt", "plain", "x.out", "y.out", "z.out", "zz.out"):
            self.put(name, contents(GOOD))
        self.put("refused.img", contents(REFUSED))
        self.put("empty.img")
        os.mkdir(self.path("folder.img"))
        os.symlink("gone", self.path("gone.img"))
        done = self.rack("inventory", ".", status=1)
        self.assertEqual(done.out, stored("folder.txt"))
        self.assert_told(done, "./gone.img", "a symbolic link to nowhere")
        done = self.rack("inventory", "--json", ".", status=1)
        self.assertEqual(done.out, stored("folder.json"))
        for line in done.out.splitlines():
            json.loads(line)

    def test_as_the_checking_program_says(self):
        rows = self.rack("inventory", *IMAGES).out.splitlines()[: len(IMAGES)]
        for path, row in zip(IMAGES, rows):
            self.assertEqual(row.split("  ")[0], path)
            answer = contents(path[:-3] + "out").decode().splitlines()[-1]
            self.assertIn(f"  {answer}  ", row)
            self.assertTrue(row.split(answer)[1].strip().startswith(MEANING[int(answer.split()[1])]), row)

    def test_an_empty_folder(self):
        self.assertEqual(self.rack("inventory", ".").out, "0 images: 0 refused, 0 that do not pass, 0 that pass\n")

    def test_two_folders(self):
        for folder in ("one", "two"):
            os.mkdir(self.path(folder))
            self.put(f"{folder}/a.img", contents(GOOD))
            self.put(f"{folder}/notes", b"")
        out = self.rack("inventory", "one", "two").out
        self.assertIn("one/a.img  verdict 0 0", out)
        self.assertIn("two/a.img  verdict 0 0", out)
        self.assertIn("passed over, as no file ending in .img or .bin: one/notes, two/notes\n", out)


class Deadlines(Bench):
    def test_text_and_image(self):
        """The field stands in bytes 12 to 15, and comes back as text and as bytes; where it is left out they are zero."""
        for text, fields in ((GUARD, (1500, 1100)), (GUARD.replace(" deadline 1500", ""), (0, 1100))):
            image = contents(self.image_of(text, "guard.img"))
            self.assertEqual([int.from_bytes(image[at + 12 : at + 16], "little") for at in (0, 32)], list(fields))
            self.assertEqual(self.rack("show", "guard.img").out, text)
            self.rack("clean", "--force", "guard.img", "new.img")
            self.assertEqual(contents(self.path("new.img")), image)

    def test_words_anyhow_apart(self):
        self.assertEqual(contents(self.image_of(GUARD.replace(" ", " \t ").replace("\n", " # and why\n"))), contents(self.image_of(GUARD)))

    def test_verdicts(self):
        for text, verdict in ((GUARD, "0 0"), (GUARD.replace("1100", "1099"), "14 9"), (GUARD.replace("1500", "1000"), "0 0")):
            image = self.image_of(ZEROS + text)
            self.assertEqual(self.rack("check", image).out, f"task 7 3 0\ntask 9 3 0\nverdict {verdict}\n")
            number, task = verdict.split()
            said = json.loads(self.rack("inventory", "--json", image).out.splitlines()[0])
            self.assertEqual((said["number"], said["task"]), (int(number), int(task)))

    def test_dispatch_stays_by_position(self):
        """The later deadline runs, as it stands first; a standing in FP shows 0."""
        image = self.image_of(ZEROS + GUARD)
        self.put("script.txt", b"release 9 0\nrelease 7 0\n")
        last = self.rack("play", "--standing", "9", image, "script.txt").out.splitlines()[-1]
        self.assertEqual(last, "release 7 0  0 done  task 7  FP, deadline 0, position 1")


class Clean(Bench):
    def test_what_loads_comes_back(self):
        self.put("table.txt", b"task DP1 7 2000 1000\nsemaphore 1\n")
        self.rack("make", "--size", "4096", "table.txt", "long.img")
        for path in IMAGES + [self.path("long.img")]:
            refused = path in IMAGES and contents(path[:-3] + "out").startswith(b"image")
            self.rack("clean", path, "new.img", status=1 if refused else 0)
            self.assertEqual(os.path.exists(self.path("new.img")), not refused)
            if not refused:
                self.assertEqual(contents(self.path("new.img")), contents(path))
                os.unlink(self.path("new.img"))


class Picture(Bench):
    def test_the_stored_one(self):
        self.rack("picture", os.path.join(SHELF, "stale-board-2.img"), "out.svg")
        self.assertEqual(contents(self.path("out.svg")), contents(os.path.join(EXAMPLES, "pictures", "stale-board-2.svg")))

    def drawn(self, path):
        """The words of a picture, which is well formed."""
        self.rack("picture", "--force", path, "out.svg")
        tree = xml.etree.ElementTree.fromstring(contents(self.path("out.svg")))
        self.assertTrue(tree.tag.endswith("svg"))
        return [e.text for e in tree.iter() if e.tag.endswith("text")]

    def test_each_number_is_in_it(self):
        for table in glob.glob(os.path.join(EXAMPLES, "tables", "*.txt")):
            self.rack("make", "--force", table, "table.img")
            words = {word for text in self.drawn("table.img") for word in (text, text.replace("deadline ", ""))}
            head, rows = self.rack("check", "--explain", "table.img").out.split("load/period\n")[:2]
            columns = len(head.splitlines()[-1].split()) + 1
            for line in rows.split("\n\n")[0].splitlines():
                row = line.replace(" %", "_%").split()[:columns]
                for value in row[:1] + row[2:]:
                    self.assertIn(value.replace("_%", " %"), words)

    def test_what_the_verdict_names(self):
        words = self.drawn(os.path.join(SHELF, "stale-board-6.img"))
        self.assertIn("verdict 14, task 3: an FP task has no time", words)
        bold = re.findall(r'font-weight="bold">([^<]*)<', contents(self.path("out.svg")).decode())
        self.assertIn("3", bold)
        self.assertNotIn("2", bold)

    def test_deadlines(self):
        """A flag at a quarter of the bar and its ticks below it, and what a flag is; without a deadline none of it."""
        words = self.drawn(self.image_of_example("pulse-guard-late"))
        self.assertEqual([word for word in words if "deadline" in word], ["deadline of its own", "deadline 250,000"])
        self.assertIn('<path d="M306 ', contents(self.path("out.svg")).decode())
        self.assertNotIn("deadline", " ".join(self.drawn(self.image_of_example("pulse-guard"))))

    def test_names_that_are_markup(self):
        self.put("<&>.img", contents(GOOD))
        self.assertIn("<&>.img", self.drawn("<&>.img"))


class Play(Bench):
    def test_each_call(self):
        """Every call, answered well and refused; the bench figures P10 to P12 of 01 are among them."""
        table = "task FP 7 100000 10000\ntask FP 9 200000 20000\ntask FP 11 400000 40000\nsemaphore 1\nsemaphore 2\n"
        image = self.image_of(table)
        for name in ("calls", "ring"):
            self.put("script.txt", stored(f"{name}.txt").encode())
            self.assertEqual(self.rack("play", "--standing", "11", image, "script.txt").out, stored(f"{name}.out"))

    def test_deadlines(self):
        """Tasks of P1 as numbers 7 and 9: at equal deadlines the position decides, else the earlier deadline."""
        image = self.image_of(ZEROS + "task DP1 7 2000 1000\ntask DP1 9 2000 1000\n")
        for time, runs in ((0, 7), (1, 9)):
            self.put("script.txt", f"release 9 0\nrelease 7 {time}\n".encode())
            last = self.rack("play", "--standing", "7", image, "script.txt").out.splitlines()[-1]
            self.assertEqual(last, f"release 7 {time}  0 done  task {runs}  DP1, deadline {2000 + time:,}, position 0")

    def test_an_unknown_task_is_asked_about(self):
        self.put("script.txt", b"release 1 0\n")
        self.assertIn("20 unknown task", self.rack("play", "--standing", "65535", GOOD, "script.txt").out)
        self.assert_told(self.rack("play", "--standing", "65536", GOOD, "script.txt", status=1), "--standing 65536")

    def test_a_refused_image(self):
        self.put("script.txt", b"release 1 0\n")
        self.assert_told(self.rack("play", REFUSED, "script.txt", status=1), REFUSED, "refused with 3 at record 6: used record after")
