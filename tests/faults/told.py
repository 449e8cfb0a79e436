"""One table of exit statuses in help, manual and README; the manual names every command and option."""
import pathlib
import re
import subprocess

from faults.common import Case, PROGRAM

ROOT = pathlib.Path(__file__).parents[2]


def output(*words):
    return subprocess.run([PROGRAM, *words], capture_output=True, text=True, check=True).stdout


class Told(Case):
    def test_statuses(self):
        help_ = output("--help")
        table = re.findall(r"^  (\d+(?: to \d+)?)  +(\S.*)$", help_[help_.index("Exit status:"):], re.M)
        self.assertEqual([number for number, _ in table], ["0", "1 to 6", "64", "70", "71", "74"])
        manual = (ROOT / "docs/quicklook.1").read_text()
        readme = (ROOT / "README.md").read_text()
        for number, meaning in table:
            self.assertIn(f".It {number}\n{meaning}.\n", manual)
            self.assertIn(f"| {number} | {meaning} |", readme)

    def test_manual(self):
        """Every command and every option of each is in the manual, and the manual is well formed."""
        manual = (ROOT / "docs/quicklook.1").read_text()
        commands = re.findall(r"^  ([a-z]+)  ", output("--help").split("Commands:")[1].split("Options:")[0], re.M)
        self.assertGreater(len(commands), 11)
        for command in commands:
            if command == "help":
                continue
            self.assertIn(f".It Cm {command}", manual)
            for option in re.findall(r"^ +(?:-\w, )?--([a-z0-9-]+)", output(command, "--help"), re.M):
                if option != "help":
                    self.assertRegex(manual, rf"Fl Fl {option}\b", command)
        lint = subprocess.run(["mandoc", "-T", "lint", "-W", "warning", ROOT / "docs/quicklook.1"], capture_output=True, text=True)
        self.assertEqual(lint.stdout.strip(), "")
