"""Lists from Linux rigs: what `import` and `export` make of them, against tables worked out here anew; and, where it may be asked, the kernel itself."""
import errno
import glob
import os
import platform
import random
import re
import struct
import subprocess
import sys

from command.numbers import MEANING
from command.tests.bench import EXAMPLES, ROOT, SHELF, Bench, contents

LINUX = os.path.join(EXAMPLES, "linux")
TIMES_MOST = 1_000_000_009  # the longest deadline in range, in nanoseconds
# the numbers of the calls sched_setattr and sched_getattr
SET, GET = 314, 315
# what the kernel answers where a process may not set the policy on itself, or where it is not there
NOT_HERE = (errno.EPERM, errno.ENOSYS, errno.EBUSY, errno.E2BIG)
CHILD = """\
import ctypes, sys
call, record = ctypes.CDLL(None, use_errno=True).syscall, bytes.fromhex(sys.argv[1])
given, got = ctypes.create_string_buffer(record, 48), ctypes.create_string_buffer(48)
plain = ctypes.create_string_buffer((48).to_bytes(4, "little"), 48)
if call({SET}, 0, given, 0):
    sys.exit(f"set {{ctypes.get_errno()}}")
read = call({GET}, 0, got, 48, 0)
left = call({SET}, 0, plain, 0)
print("read", read, "left", left, got.raw.hex())
""".format(SET=SET, GET=GET)


def attr(runtime, deadline, period=0, size=48, policy=6, flags=0, nice=0, priority=0):
    return struct.pack("<IIQiIQQQ", size, policy, flags, nice, priority, runtime, deadline, period)


def table(times):
    """The text of the table that a list of runtimes and deadlines makes."""
    tasks = sorted((deadline // 10, i + 1, -(-runtime // 10)) for i, (runtime, deadline) in enumerate(times))
    return "".join(f"task DP1 {number} {period} {cost}\n" for period, number, cost in tasks)


def written(times):
    """The list that is written of that table."""
    tasks = sorted((deadline // 10, i, -(-runtime // 10)) for i, (runtime, deadline) in enumerate(times))
    return b"".join(attr(10 * cost, 10 * period, 10 * period) for period, _, cost in tasks)


def drawn(rng, n):
    """So many times at random, many of them equal or in one tick."""
    deadlines = [rng.choice((10_000, 10_009, 20_003, 20_009, 999_999_999, TIMES_MOST, rng.randint(10_000, TIMES_MOST))) for _ in range(n)]
    return [(rng.choice((1, deadline // 10 * 10, rng.randint(1, deadline // 10 * 10))), deadline) for deadline in deadlines]


class Examples(Bench):
    def test_as_their_readme_makes_them(self):
        text, made = contents(os.path.join(LINUX, "README.md")).decode("utf-8"), {}
        exec(re.search(r"^```python\n(.*?)^```$", text, re.M | re.S).group(1), made)
        for name, data in made["lists"].items():
            self.assertEqual(contents(os.path.join(LINUX, f"{name}.lin")), data, name)
        self.assertEqual(len(made["lists"]), len(glob.glob(os.path.join(LINUX, "*.lin"))))
        for name, lines in zip(("left-out", "fp-task"), re.findall(r"^```text\n(.*?)^```$", text, re.M | re.S)):
            self.assertEqual(contents(self.image_of(lines)), contents(os.path.join(LINUX, f"{name}.img")), name)
        for name in os.listdir(LINUX):
            self.assertTrue(f"`{name}`" in text or name.endswith((".out", ".txt")) or name == "README.md", name)


class Import(Bench):
    def refused(self, data, number, place, *parts):
        """The number, the place and the meaning are told, and nothing is written."""
        self.put("rig.lin", data)
        told = f"rig.lin: the list is refused with {number} at record {place}: {MEANING[number]}"
        self.assert_told(self.rack("import", "rig.lin", "new.img", status=1), told, *parts)
        self.assertEqual(os.listdir(self.folder), ["rig.lin"])

    def test_rounded_and_in_order(self):
        """Runtimes up, periods down, by rising period and equal ones by rising number; and back again as a list."""
        rng = random.Random(20261115)
        for n in (1, 2, 5, 17, 64):
            times = drawn(rng, n)
            self.put("rig.lin", b"".join(attr(runtime, deadline, rng.choice((0, deadline))) for runtime, deadline in times))
            said = self.rack("import", "--force", "rig.lin", "rig.img").out
            up, down = (sum(pair[i] % 10 > 0 for pair in times) for i in (0, 1))
            self.assertTrue(said.startswith(f"rig.img: {32 * n:,} bytes, {n} task"), said)
            self.assertRegex(said, rf"; {up} runtimes? rounded up and {down} periods? down to ticks of 10 ns\n$" if up + down else "; nothing was rounded\n$")
            self.assertEqual(self.rack("show", "rig.img").out, table(times))
            self.rack("export", "--force", "rig.img", "back.lin")
            self.assertEqual(contents(self.path("back.lin")), written(times))

    def test_an_imported_image_is_checked(self):
        self.rack("import", os.path.join(LINUX, "whole.lin"), "whole.img")
        self.assertEqual(self.rack("check", "whole.img").out, "task 1 1 1170\ntask 2 1 1170\ntask 3 1 1170\nverdict 0 0\n")

    def test_each_refusal(self):
        good = attr(2_000_000, 10_000_000)
        self.refused(good + b"\0", 40, 0, "(it has 49 bytes)")
        self.refused(b"\0", 40, 0, "(it has 1 byte)")
        self.refused(good + attr(2_000_000, 10_000_000, size=56), 40, 1, "(size 56, policy 6, flags 0, nice 0, priority 0, runtime 2,000,000, ")
        for field in ({"policy": 0}, {"flags": 2**63}, {"nice": -20}, {"priority": 99}):
            name, value = next(iter(field.items()))
            self.refused(2 * good + attr(2_000_000, 10_000_000, **field), 41, 2, f" {name} {value:,}, ")
        for times in ((1, 9_999), (1, TIMES_MOST + 1), (0, 10_000), (10_001, 10_009), (2**64 - 1, 10_000), (1, 10_000, 10_001), (1, 0, 10_000), (0, 0)):
            self.refused(good + attr(*times), 42, 1, f" runtime {times[0]:,}, deadline {times[1]:,}, period ")
        self.refused(65 * good, 6, 64)
        self.refused(64 * good + attr(1, 0), 42, 64)
        self.refused(b"", 7, 0, "no task (it has 0 bytes)")

    def test_a_long_list(self):
        """What stands behind the 65th record counts for the length alone; a list that does not end is none."""
        good = attr(2_000_000, 10_000_000)
        self.refused(100_000 * good, 6, 64)
        self.refused(100_000 * good + b"\0", 40, 0, "(it has 4,800,001 bytes)")
        self.assert_told(self.rack("import", "/dev/zero", "new.img", status=1), "/dev/zero: longer than 48,000,000 bytes, which no list here is")

    def test_size(self):
        """Erased records behind the table; what does not fit is told, but a list that is refused is told first."""
        whole, size = os.path.join(LINUX, "whole.lin"), os.path.join(LINUX, "size.lin")
        self.rack("import", whole, "just.img")
        self.rack("import", "--size", "4096", whole, "long.img")
        self.assertEqual(contents(self.path("long.img")), contents(self.path("just.img")).ljust(4096, b"\xff"))
        for wrong in ("0", "64", "97", "4097", "4128", "9" * 18):
            done = self.rack("import", "--size", wrong, whole, "new.img", status=1)
            self.assert_told(done, f"--size {wrong}: a multiple of 32 from 96 to 4096 is needed")
            self.assert_told(self.rack("import", "--size", wrong, size, "new.img", status=1), "refused with 40 at record 1")
        self.assertEqual(sorted(os.listdir(self.folder)), ["just.img", "long.img"])


class Export(Bench):
    def test_read_back(self):
        """A table numbered from 1 to n in order, with neither semaphores nor a board record, comes back as it was."""
        text = "task DP1 1 1000 1000\ntask DP1 2 1000 1\ntask DP1 3 100000000 7\n"
        image = self.image_of(text)
        self.assertEqual(self.rack("export", image, "table.lin").out, "table.lin: 144 bytes, 3 records\n")
        self.rack("import", "table.lin", "back.img")
        self.assertEqual(contents(self.path("back.img")), contents(image))

    def test_other_numbers(self):
        """Numbers have no place in a list: those that come back are the places in table order."""
        self.rack("export", self.image_of("task DP1 9 2000 1\ntask DP1 7 3000 1\n"), "table.lin")
        self.rack("import", "table.lin", "back.img")
        self.assertEqual(self.rack("show", "back.img").out, "task DP1 1 2000 1\ntask DP1 2 3000 1\n")

    def test_what_is_left_out(self):
        tasks = "task DP1 1 2000 1000\n"
        zeros = "board 0 0 0 0 0 0 0 0 0\n"
        for text, said in (
            (tasks, ""),
            (zeros + tasks, "; left out: the board record"),
            (tasks + "semaphore 1\n", "; left out: 1 semaphore"),
            (zeros + tasks + "semaphore 1\nsemaphore 2\n", "; left out: 2 semaphores, the board record"),
        ):
            done = self.rack("export", "--force", self.image_of(text), "table.lin")
            self.assertEqual(done.out, f"table.lin: 48 bytes, 1 record{said}\n")
            self.assertEqual(contents(self.path("table.lin")), attr(10_000, 20_000, 20_000))

    def test_outside_dp1(self):
        """43 is told with the tasks that it comes of, and nothing is written."""
        image = self.image_of("task DP1 1 2000 1\ntask DP2 2 3000 1\ntask FP 3 4000 1 deadline 3000\n")
        done = self.rack("export", image, "new.lin", status=1)
        self.assert_told(done, f"writing is refused with 43: {MEANING[43]} (task 2 is in DP2, task 3 is in FP)")
        self.assertFalse(os.path.exists(self.path("new.lin")))

    def test_a_refused_image(self):
        done = self.rack("export", os.path.join(SHELF, "second-table-03.img"), "new.lin", status=1)
        self.assert_told(done, "the image is refused with 3 at record 6: used record after an erased one")
        self.assertEqual(os.listdir(self.folder), [])


class Kernel(Bench):
    def skipped(self, why):
        print(f"command: SKIPPED, a list's record set on a process: {why}", file=sys.stderr)
        self.skipTest(why)

    def test_a_record_is_what_the_kernel_takes(self):
        """A child sets a record of an exported list on itself, reads it back, and leaves the policy again."""
        if platform.machine() != "x86_64" or not sys.platform.startswith("linux"):
            self.skipped("this is no Linux on x86_64")
        self.rack("export", self.image_of("task DP1 1 10000000 1000000\n"), "one.lin")
        record = contents(self.path("one.lin"))
        done = subprocess.run([sys.executable, "-c", CHILD, record.hex()], stdout=subprocess.PIPE, stderr=subprocess.PIPE, timeout=60, cwd=ROOT)
        said, refused = done.stdout.decode(), re.match(r"set (\d+)$", done.stderr.decode())
        if refused and int(refused.group(1)) in NOT_HERE:
            self.skipped(f"the kernel answers {errno.errorcode[int(refused.group(1))]}")
        self.assertEqual(said, f"read 0 left 0 {record.hex()}\n", done.stderr.decode())
