"""All outputs or none: every call of the system that the program makes fails once, at each of its places."""
import os
import random
import re
import shutil
import signal
import stat

from faults.common import EARLIER, FORMATS, Case

ERRORS = {"open": "EMFILE", "write": "ENOSPC", "read": "EIO", "pread": "EIO", "fsync": "EIO", "exchange": "EPERM", "unlink": "EPERM", "fchmod": "EPERM", "fchown": "EPERM", "flock": "ENOLCK", "getrandom": "ENOSYS", "thread": "EAGAIN", "spawn": "EAGAIN", "pipe": "EMFILE"}
# What the program can do without, and what it cannot.
SPARED = {"unlink", "fchown", "flock", "thread"}
NEEDED = {"fsync", "exchange", "fchmod", "getrandom"}
MOST = 14


class Together(Case):
    def places(self, count):
        """All places of a call where there are few, else the first, the last and some between."""
        if count <= MOST:
            return range(1, count + 1)
        return sorted({1, 2, 3, count - 2, count - 1, count, *random.Random(count).sample(range(1, count + 1), MOST - 6)})

    def counts(self, words):
        path = self.folder / "counts"
        self.done(*words, environment={"FAULT_COUNTS": str(path)})
        found = {name: int(number) for name, number in (line.split() for line in path.read_text().splitlines())}
        path.unlink()
        return found

    def each(self, form):
        names, words = FORMATS[form], self.words(form)
        self.done(*words)
        new = self.bytes_of(names)
        self.assertNotIn(None, new)
        counts = self.counts(words)
        self.assertGreaterEqual(counts["exchange"], len(names))
        self.assertGreaterEqual(counts["fsync"], len(names) + 1)
        failed = 0
        for function, error in ERRORS.items():
            for place in self.places(counts[function]):
                for is_there in (True, False):
                    self.clear(names)
                    if is_there:
                        self.put_earlier(names)
                    before = [EARLIER if is_there else None] * len(names)
                    result = self.run_(*words, fault=(function, place, error))
                    told = result.stderr.decode(errors="replace")
                    case = (form, function, place, is_there, result.returncode, told)
                    self.assertIn(result.returncode, (0, 74), case)
                    self.assertNotIn("internal error", told, case)
                    self.assertEqual(self.bytes_of(names), new if result.returncode == 0 else before, case)
                    if function in SPARED:
                        self.assertEqual(result.returncode, 0, case)
                    if function in NEEDED and (is_there or function != "fchmod"):
                        self.assertEqual(result.returncode, 74, case)
                    if function != "unlink":
                        self.assertEqual(self.left(), [], case)
                    failed += result.returncode != 0
                    for name in self.left():
                        (self.folder / name).unlink()
        self.assertGreater(failed, 2 * len(names))
        self.assertEqual(sorted(name for name in os.listdir(self.folder) if name not in names), self.inputs)

    def test_npy(self):
        self.each("npy")

    def test_png(self):
        self.each("png")

    def test_png_with_world_files(self):
        self.each("world")

    def test_tif(self):
        self.each("tif")

    def test_cog(self):
        self.each("cog")

    def test_page(self):
        self.each("html")

    def test_way_back(self):
        """Where an output cannot take its name those before it are put back, with their rights; where there was none, none is."""
        names = FORMATS["npy"]
        for place in (1, 2, 3):
            self.put_earlier(names)
            (self.folder / names[0]).chmod(0o640)
            self.fails(74, names[place - 1], *self.words("npy"), fault=("exchange", place, "EPERM"))
            (self.folder / names[1]).unlink()
            self.fails(74, names[place - 1], *self.words("npy"), fault=("exchange", place, "EPERM"))
            self.clear(names)
            self.fails(74, names[place - 1], *self.words("npy"), fault=("exchange", place, "EPERM"))

    def test_file_systems_that_know_less(self):
        """Without exchanges an earlier file gets a second name, without second names it is copied: all outputs or none there too."""
        names = FORMATS["npy"]
        self.done(*self.words("npy"))
        new = self.bytes_of(names)
        for without in ("exchange:1*:22", "exchange:1*:22,link:1*:1"):
            for mode in (0o640, 0o600):
                self.put_earlier(names)
                (self.folder / names[0]).chmod(mode)
                for place in (1, 2, 3):
                    self.fails(74, names[place - 1], *self.words("npy"), environment={"FAULT": f"{without},rename:{place}:1"})
                self.done(*self.words("npy"), environment={"FAULT": without})
                self.assertEqual(self.bytes_of(names), new)
                self.assertEqual(stat.S_IMODE((self.folder / names[0]).stat().st_mode), mode)
                self.assertEqual(self.left(), [])
                self.clear(names)
                for place in (1, 2, 3):
                    self.fails(74, names[place - 1], *self.words("npy"), environment={"FAULT": f"{without},rename:{place}:1"})
                self.done(*self.words("npy"), environment={"FAULT": without})
                self.assertEqual(self.bytes_of(names), new)

    def test_no_way_back(self):
        """Where no name can be given any more, not even the earlier ones, no earlier file is lost: the message tells where it is, and no later
        run takes it for a left one."""
        names = FORMATS["npy"]
        for more in ("", ",link:1*:1"):
            self.put_earlier(names)
            (self.folder / names[0]).write_bytes(b"the first one")
            result = self.run_(*self.words("npy"), environment={"FAULT": "exchange:2*:1,rename:1*:1" + more})
            self.assertEqual(result.returncode, 74, result.stderr)
            [told] = re.findall(r"the earlier one is (.*)", result.stderr.decode())
            self.assertEqual((self.folder / told).read_bytes(), b"the first one")
            self.assertEqual(self.left(), [os.path.basename(told)])
            self.assertEqual(self.bytes_of(names[1:]), [EARLIER] * 2)
            self.done(*self.words("npy"))
            self.assertEqual((self.folder / told).read_bytes(), b"the first one")
            (self.folder / told).unlink()

    def test_taken_while_names_are_given(self):
        """What another program puts into an output's place meanwhile is not lost, whether the output has its name already or not."""
        names = FORMATS["npy"]

        def file(path):
            (self.folder / "other").write_bytes(b"of another program")
            os.replace(self.folder / "other", path)

        def folder(path):
            path.unlink(missing_ok=True)
            path.mkdir()
            (path / "thesis").write_bytes(b"mine")

        def link(path):
            path.unlink(missing_ok=True)
            path.symlink_to("db1.npy")

        for is_there in (True, False):
            for put in (file, folder, link, lambda path: path.unlink(missing_ok=True) or os.mkfifo(path)):
                # Before the second output takes its name, in its place; and after the first has, in that one's, when a signal comes.
                for at, where in ((1, 1), (2, 0)):
                    self.clear(names)
                    if is_there:
                        self.put_earlier(names)
                    process = self.slowly(self.words("npy"), f"exchange:{at}", 1.5)
                    path = self.folder / names[where]
                    put(path)
                    there = os.lstat(path).st_ino
                    if at == 2:
                        process.send_signal(signal.SIGTERM)
                    status, told = self.ends(process)
                    case = (is_there, put, at, where, status, told)
                    self.assertEqual(status, 74 if at == 1 else -signal.SIGTERM, case)
                    self.assertIn("another file took its name" if at == 1 else "", told, case)
                    self.assertEqual(os.lstat(path).st_ino, there, case)
                    for name in names:
                        if name != names[where]:
                            self.assertEqual(self.bytes_of([name]), [EARLIER if is_there else None], case)
                    self.assertEqual(self.left(), [], case)
                    shutil.rmtree(path) if path.is_dir() and not path.is_symlink() else path.unlink()
                    self.clear(names)
        self.assertEqual(self.inputs, sorted(os.listdir(self.folder)))

    def test_taken_while_the_output_is_written(self):
        """Judged again when the output takes its name: a folder, a link that leads elsewhere, a pipe, a read-only file."""
        words = ["read", "db1.npy", "--out", "o.npy"]
        path = self.folder / "o.npy"
        for is_there in (True, False):
            for status, put in ((64, lambda: path.mkdir()), (74, lambda: path.symlink_to("elsewhere/o.npy")), (64, lambda: os.mkfifo(path)),
                                (74, lambda: (path.write_bytes(b"mine"), path.chmod(0o444)))):
                self.clear(["o.npy"])
                if is_there:
                    path.write_bytes(EARLIER)
                process = self.slowly(words, "fsync:1", 1)
                path.unlink(missing_ok=True)
                put()
                before = self.snapshot()
                got, told = self.ends(process)
                self.assertEqual(got, status, told)
                self.assertEqual({name: what for name, what in before.items() if not name.startswith(".")}, self.snapshot())
                path.rmdir() if path.is_dir() else path.unlink()

    def test_no_free_name(self):
        """A part file is a new file: a link or a file of its name is neither followed nor overwritten."""
        words = ["read", "db1.npy", "--out", "o.npy"]
        (self.folder / "target").write_bytes(EARLIER)
        before = self.snapshot()
        killed = self.run_(*words, environment={"FAULT_RANDOM": "1", "FAULT": "fsync:1:0", "FAULT_KILL": "1"})
        self.assertEqual(killed.returncode, -9)
        [part] = self.left()
        for put in (lambda path: path.symlink_to("target"), lambda path: path.mkdir()):
            (self.folder / part).unlink()
            put(self.folder / part)
            self.fails(74, "no free name", *words, environment={"FAULT_RANDOM": "1"})
            if (self.folder / part).is_dir():
                (self.folder / part).rmdir()
        self.assertEqual(self.snapshot(), before)
