"""Standard output and error that are closed, full or read by nobody any more."""
import os
import subprocess

from faults.common import FORMATS, PROGRAM, Case


class Streams(Case):
    def run_to(self, words, out=None, error=None):
        with open(out or os.devnull, "w") as one, open(error or os.devnull, "w") as two:
            return subprocess.run([PROGRAM, *words], cwd=self.folder, stdout=one, stderr=two, stdin=subprocess.DEVNULL, timeout=60).returncode

    COMMANDS = (["stats", "db1.npy", "marks1.npy"], ["stats", "db1.npy", "marks1.npy", "--json"], ["window", "db1.npy", "marks1.npy"],
                ["histogram", "db1.npy", "marks1.npy"], ["histogram", "db1.npy", "marks1.npy", "--json"], ["--help"], ["--version"],
                ["help", "grey"], ["demo", "d"])

    def test_full(self):
        """A full standard output is 74, and then nothing else is written either; a full standard error is nobody's loss."""
        for words in self.COMMANDS:
            self.assertEqual(self.run_to(words, out="/dev/full"), 74, words)
            self.assertFalse((self.folder / "d").exists())
            self.assertEqual(self.run_to(words, error="/dev/full"), 0, words)
        self.assertEqual(self.run_to(["stats", "no.npy", "no.npy"], error="/dev/full"), 74)
        self.assertEqual(self.run_to(["nonsense"], error="/dev/full"), 64)
        self.assertEqual(self.run_to(["picture", "scene.tif", "--marks", "auto", "--out", "o.tif"], "/dev/full", "/dev/full"), 0)

    def test_closed(self):
        """A result that has nowhere to go is 74; nothing else is missed."""
        for words in self.COMMANDS:
            for closed in (">&-", "2>&-", ">&- 2>&-", "<&- >&- 2>&-", "<&-", "1</dev/null", "1<.", "2</dev/null"):
                done = subprocess.run(["sh", "-c", f'"$0" "$@" {closed}', PROGRAM, *words], cwd=self.folder, capture_output=True, timeout=60)
                is_lost = ">&-" in closed.split() or closed.startswith("1<")
                self.assertEqual(done.returncode, 74 if is_lost else 0, (words, closed, done.stderr))
                self.assertEqual((self.folder / "d").exists(), words[0] == "demo" and not is_lost)
                subprocess.run(["rm", "-rf", self.folder / "d"], check=True)
        for form in ("npy", "tif"):
            done = subprocess.run(["sh", "-c", '"$0" "$@" <&- >&- 2>&-', PROGRAM, *self.words(form)], cwd=self.folder, timeout=60)
            self.assertEqual(done.returncode, 0)
            self.assertNotIn(None, self.bytes_of(FORMATS[form]))

    def test_nobody_reads(self):
        for words in self.COMMANDS:
            for stream in ("stdout", "stderr"):
                reader, writer = os.pipe()
                os.close(reader)
                streams = {"stdout": subprocess.DEVNULL, "stderr": subprocess.DEVNULL, stream: writer}
                done = subprocess.run([PROGRAM, *words], cwd=self.folder, stdin=subprocess.DEVNULL, timeout=60, **streams)
                os.close(writer)
                self.assertEqual(done.returncode, 0, (words, stream))
                if words[0] == "demo":
                    self.assertGreater(len(os.listdir(self.folder / "d")), 15)
                    subprocess.run(["rm", "-rf", self.folder / "d"], check=True)
