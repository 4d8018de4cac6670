"""Help, and wrong calls."""
import os

from command.commands import COMMANDS
from command.tests.bench import GOOD, RACK, Bench


class Help(Bench):
    def test_each_command(self):
        every = self.rack("help").out
        for c in COMMANDS:
            self.assertIn(f"./rack {c.name} ", every)
            told = self.rack("help", c.name)
            self.assertTrue(told.out.startswith(f"./rack {c.name} {c.takes}: {c.summary}\n\n"), told.out)
            self.assertIn("Exit status: ", told.out)
            for option in c.options:
                self.assertIn(f"\n  {option} ", told.out)
                self.assertIn(f"[{option}", told.out)
            for word in ("--help", "-h"):
                self.assertEqual(self.rack(c.name, word).out, told.out)

    def test_from_another_folder_and_by_a_link(self):
        os.symlink(RACK, self.path("link"))
        self.assertEqual(self.rack("help", command=(self.path("link"),)).out, self.rack("help").out)


class WrongCalls(Bench):
    def test_each(self):
        for words, why in (
            ((), "what is to be done?"),
            (("chekc", GOOD), "'chekc' is none of check, inventory"),
            (("help", "chekc"), "there is help for one of check, inventory"),
            (("check",), "check wants an image"),
            (("inventory",), "inventory wants a folder or an image"),
            (("clean", GOOD), "clean wants an image and the file to write"),
            (("picture", GOOD), "picture wants an image and the file to write"),
            (("play", GOOD), "play wants an image and a script"),
            (("play", "--standing", GOOD, "s"), "--standing wants a task's number"),
            (("make", "t"), "make wants a text table and the image to write"),
            (("make", "t", "i", "--size"), "--size wants a number"),
            (("show",), "show wants one image"),
            (("show", GOOD, GOOD), "show wants one image"),
            (("import", "l"), "import wants a list and the image to write"),
            (("export", GOOD), "export wants an image and the list to write"),
            (("export", "--size", "96", GOOD, "l"), "there is no option --size here"),
            (("check", "--size", "32", GOOD), "there is no option --size here"),
        ):
            with self.subTest(" ".join(words)):
                done = self.rack(*words, status=2)
                self.assertEqual(done.out, "")
                self.assertTrue(done.err.startswith(f"rack: {why}"), done.err)
                self.assertIn("./rack ", done.err)

    def test_a_name_that_looks_like_an_option(self):
        with open(GOOD, "rb") as f:
            self.put("--odd", f.read())
        self.assertIn("verdict 0 0", self.rack("check", "--", "--odd").out)
