#!/usr/bin/env python3
"""tools/edits on a small crate of its own: it passes good edits, and fails where an edit passes, is refused elsewhere, has its control refused or is not
well formed, or where a public function has fewer than two. Usage: edits.py"""
import pathlib
import shutil
import subprocess
import tempfile
import unittest

TOOL = pathlib.Path(__file__).resolve().parent.parent / "tools" / "edits"
SOURCE = """// Two numbers.
#![tactic(auto)]
ghost use Rattle.std.specs.Prelude.{◌≡◌};

// The first.
pub fn seven() -> u8
    ensures { result ≡ 7 }
{
    let n: u8 = 7;
    n
}

// The second.
pub fn eight() -> u8
    ensures { result ≡ 8 }
{
    let m: u8 = 8;
    m
}
"""
SEVEN, EIGHT = "let n: u8 = 7;", "let m: u8 = 8;"
BRANCH = """// A number by a branch that its proof names.
#![tactic(auto)]
ghost use Rattle.std.specs.Prelude.{◌<◌};

// At most nine.
pub fn most(x: u8) -> u8
    ensures { result < 10 }
{
    if x > 9 {
        return 9;
    }
    x
}
"""
ANSWERS = """use native.Mathlib.Omega.{arith}
use Rattle.first.proofs.most.Goals as goal

pub returns-then-x-gt9 : goal.returns-then-x-gt9
returns-then-x-gt9 c = omega arith

pub returns : goal.returns
returns c = let fact = c.if-x-gt9.false in omega arith
"""


def words(old, new, control, at):
    return f"at: {at}\nfile: src/lib.rt\nold: {old}\nnew: {new}\ncontrol: {control}\n"


GOOD = {
    "seven_nine": words(SEVEN, "let n: u8 = 9;", "let n: u8 = 3 + 4;", "src/lib.rt:seven"),
    "seven_six": words("    n\n".strip("\n"), "    { 6 }", "    { n }", "src/lib.rt:seven"),
    "eight_nine": words(EIGHT, "let m: u8 = 9;", "let m: u8 = 4 + 4;", "src/lib.rt:eight"),
    "eight_six": words("    m\n".strip("\n"), "    { 6 }", "    { m }", "src/lib.rt:eight"),
}


class Room(unittest.TestCase):
    """A repository of one proved crate, which each test gives its edits."""
    FILES = {}

    @classmethod
    def setUpClass(cls):
        cls.room = tempfile.TemporaryDirectory()
        cls.top = pathlib.Path(cls.room.name)
        (cls.top / "crates.txt").write_text("first:\n")
        for name, text in cls.FILES.items():
            path = cls.top / "crates" / "first" / name
            path.parent.mkdir(parents=True, exist_ok=True)
            path.write_text(text)

    @classmethod
    def tearDownClass(cls):
        cls.room.cleanup()

    def tries(self, edits, *arguments):
        folder = self.top / "crates" / "first" / "edits"
        shutil.rmtree(folder, ignore_errors=True)
        folder.mkdir()
        for name, text in edits.items():
            (folder / f"{name}.edit").write_text(text)
        run = subprocess.run([TOOL, *arguments], cwd=self.top, stdout=subprocess.PIPE, stderr=subprocess.STDOUT, text=True)
        return run.returncode, run.stdout

    def ends(self, edits, said, passed, failed, *arguments):
        status, out = self.tries(edits, *arguments)
        self.assertEqual(out.splitlines()[-1], f"{passed} passed, {failed} failed", out)
        self.assertEqual(status, 1 if failed else 0)
        self.assertIn(said, out)


class Edits(Room):
    FILES = {"src/lib.rt": SOURCE}

    def test_good_edits(self):
        self.ends(GOOD, "edit first/seven_nine: refused, as it must be (first at src/lib.rt:", 8, 0)

    def test_an_edit_that_passes(self):
        self.ends(dict(GOOD, seven_nine=words(SEVEN, "let n: u8 = 5 + 2;", "let n: u8 = 3 + 4;", "src/lib.rt:seven")), "edit first/seven_nine: NOT REFUSED", 7, 1)

    def test_an_edit_refused_elsewhere(self):
        bad = words(SEVEN, "let n: u8 = 9;", "let n: u8 = 3 + 4;", "src/lib.rt:eight")
        self.ends(dict(GOOD, seven_nine=bad), "edit first/seven_nine: REFUSED ELSEWHERE", 7, 1)

    def test_a_control_that_is_refused_among_others(self):
        bad = words(SEVEN, "let n: u8 = 9;", "let n: u8 = 3 + 5;", "src/lib.rt:seven")
        self.ends(dict(GOOD, seven_nine=bad), "control first/seven_nine: REFUSED", 7, 1)

    def test_an_edit_that_does_not_compile(self):
        self.ends(dict(GOOD, seven_nine=words(SEVEN, "let n: u8 = ;", "let n: u8 = 3 + 4;", "src/lib.rt:seven")), "edit first/seven_nine: BAD EDIT", 7, 1)

    def test_an_old_text_that_is_not_there(self):
        self.ends(dict(GOOD, more=words("let k = 1;", "let k = 2;", "let k = 3;", "src/lib.rt:seven")), "edit first/more: BAD EDIT", 8, 2)

    def test_form(self):
        without_at = GOOD["seven_nine"].replace("at: src/lib.rt:seven\n", "")
        without_control = GOOD["seven_nine"].replace("control: let n: u8 = 3 + 4;\n", "")
        same = words(SEVEN, "let n: u8 = 9;", "let  n: u8  = 7;", "src/lib.rt:seven")
        for text in (without_at, without_control, same):
            with self.subTest(text=text):
                self.ends(dict(GOOD, seven_nine=text), "edit first/seven_nine: BAD EDIT", 6, 1)

    def test_a_public_function_with_one_edit(self):
        self.ends({name: text for name, text in GOOD.items() if name != "eight_six"}, "edits first::eight: 1, fewer than two", 6, 1)

    def test_what_rt_said(self):
        """Of an edit of must-fail/ that rt tried, only the place is looked at."""
        folder = self.top / "crates" / "first" / "must-fail"
        folder.mkdir()
        self.addCleanup(shutil.rmtree, folder)
        (folder / "more.edit").write_text(GOOD["seven_nine"])
        log = self.top / "log"
        for said, words_of_it, passed, failed in [
            ("refused, as it must be: note: src/lib.rt:10:5: it is not proved that", "edit first/more: refused by rt (first at src/lib.rt:10:5)", 9, 0),
            ("refused, as it must be: note: src/lib.rt:18:5: it is not proved that", "edit first/more: REFUSED ELSEWHERE by rt", 9, 1),
            ("NOT REFUSED: the crate is still proved with this edit", "edit first/more: NOT REFUSED by rt, and counted there", 9, 0),
        ]:
            with self.subTest(said=said):
                log.write_text(f"rt: must-fail first/more.edit: {said}\n")
                self.ends(GOOD, words_of_it, passed, failed, "--rt", str(log))

    def test_a_crate_that_is_not_proved(self):
        path = self.top / "crates" / "first" / "src" / "lib.rt"
        self.addCleanup(path.write_text, SOURCE)
        path.write_text(SOURCE.replace(SEVEN, "let n: u8 = 9;"))
        self.ends(GOOD, "edits: not proved as it stands", 0, 1)

    def test_an_edit_that_stands_open(self):
        path = self.top / "tools" / "edits-open"
        path.parent.mkdir(exist_ok=True)
        self.addCleanup(path.unlink)
        path.write_text("# with its reason\nfirst/seven_nine: its control falls\n")
        self.ends(GOOD, "edit first/seven_nine: OPEN, and not counted: its control falls", 6, 0)

    def test_no_such_edit(self):
        status, out = self.tries(GOOD, "first/none")
        self.assertNotEqual(status, 0)
        self.assertNotIn("0 failed", out)


class Branches(Room):
    FILES = {"src/lib.rt": BRANCH, "proofs/most/Answers.antt": ANSWERS}
    TEN, ELEVEN = [words("if x > 9 {", new, "if x >= 10 {", "proofs/most/") for new in ("if x > 10 {", "if x >= 11 {")]

    def test_a_name_that_says_the_condition(self):
        self.ends({"ten": self.TEN, "eleven": self.ELEVEN}, "edit first/ten: refused, as it must be (first at proofs/most/Answers.antt:", 4, 0)

    def test_a_control_with_another_meaning(self):
        bad = words("if x > 9 {", "if x > 10 {", "if x > 11 {", "proofs/most/")
        self.ends({"ten": bad, "eleven": self.ELEVEN}, "control first/ten: REFUSED", 3, 1)


if __name__ == "__main__":
    unittest.main()
