"""Inputs that are no plain files, that change while they are read, that are empty."""
import io
import os
import resource
import signal
import subprocess
import sys
import time

import numpy

from faults.common import EARLIER, FORMATS, PROGRAM, Case, shim

# A program that takes a raster to write and answers that it made some files.
FAKE = """#!{python}
import struct, sys
def number(): return struct.unpack("<I", sys.stdin.buffer.read(4))[0]
[sys.stdin.buffer.read(number()) for _ in range(number())]
ended = 0
while ended < 2:
    ended += not sys.stdin.buffer.read(number())
words = ["ok"] + [word for file in {files} for word in ("file", file)]
sys.stdout.buffer.write(struct.pack("<I", len(words)) + b"".join(struct.pack("<I", len(word)) + word.encode() for word in words))
sys.stdout.buffer.write((struct.pack("<I", 4) + b"TIFF" + struct.pack("<I", 0)) * len({files}))
"""


class Inputs(Case):
    rows, cols = 300, 400

    def test_not_plain(self):
        """A pipe, a device or a folder is refused, and nobody waits."""
        os.mkfifo(self.folder / "pipe")
        os.mkfifo(self.folder / "pipe.npy")
        os.mkfifo(self.folder / "pipe.tif")
        os.symlink("pipe.npy", self.folder / "link.npy")
        os.symlink("/dev/zero", self.folder / "zero.npy")
        os.mkdir(self.folder / "folder.npy")
        for name in ("pipe", "pipe.npy", "pipe.tif", "link.npy", "zero.npy", "/dev/null", "/dev/zero", "/dev/stdin"):
            for words in (("stats", name, "marks1.npy"), ("stats", "db1.npy", name), ("stretch", name, "--out", "o.npy"), ("op", "sum", "db1.npy", name, "--out", "o.npy")):
                self.fails(74, "not a plain file", *words, timeout=20, stdin=None if name != "/dev/stdin" else open(self.folder / "pipe", "rb+", buffering=0))
        self.fails(74, "folder.npy", "stats", "folder.npy", "marks1.npy")

    def test_standard_input(self):
        plain = self.done("stats", "db1.npy", "marks1.npy").stdout
        for name, words in (("db1.npy", ("stats", "-", "marks1.npy")), ("marks1.npy", ("stats", "db1.npy", "-"))):
            bytes_ = (self.folder / name).read_bytes()
            for kind in ("pipe", "file"):
                given = dict(input=bytes_, stdin=None) if kind == "pipe" else dict(stdin=open(self.folder / name, "rb"))
                self.assertEqual(self.done(*words, **given).stdout, plain)
            for end in (0, 5, 9, 100, len(bytes_) - 1):
                self.fails(74, "standard input", *words, input=bytes_[:end], stdin=None)
            self.fails(74, "standard input", *words, input=bytes_ + b"x", stdin=None)
            self.fails(74, "standard input", *words, input=(self.folder / "scene.tif").read_bytes(), stdin=None)
        self.fails(64, "standard input", "stats", "-", "-", input=bytes_, stdin=None)
        crop = ["--crop", "3,5,50,60"]
        self.assertEqual(self.done("stats", "-", "marks1.npy", *crop, input=(self.folder / "db1.npy").read_bytes(), stdin=None).stdout,
                         self.done("stats", "db1.npy", "marks1.npy", *crop).stdout)
        turned = io.BytesIO()
        numpy.save(turned, numpy.asfortranarray(numpy.load(self.folder / "db1.npy")).astype(">f8"))
        self.assertEqual(self.done("stats", "-", "marks1.npy", input=turned.getvalue(), stdin=None).stdout, plain)

    def test_origin_of_standard_input(self):
        import hashlib
        from PIL import Image
        bytes_ = (self.folder / "db1.npy").read_bytes()
        self.done("grey", "-", "marks1.npy", "--out", "o.png", input=bytes_, stdin=None)
        told = Image.open(self.folder / "o.png").text
        self.assertEqual(told["quicklook_input1"], f"standard input sha256 {hashlib.sha256(bytes_).hexdigest()}")

    def test_a_file_named_minus(self):
        numpy.save(self.folder / "x.npy", numpy.ones((3, 3)))
        os.rename(self.folder / "x.npy", self.folder / "-")
        numpy.save(self.folder / "m.npy", numpy.ones((3, 3), "u1"))
        self.assertIn(b"valid   9", self.done("stats", "./-", "m.npy").stdout)

    def test_shortened_while_read(self):
        """Shortened at any of its reads: 74 with its name, or done where all was read already."""
        names = FORMATS["npy"]
        words = self.words("npy")
        whole = {name: (self.folder / name).read_bytes() for name in ("db1.npy", "marks2.npy")}
        for name, bytes_ in whole.items():
            for mapped in ([], ["--map"]):
                for keep in (0, 100, 5000, len(bytes_) - 1):
                    self.put_earlier(names)
                    process = self.slowly([*words, *mapped], "fsync:1*" if mapped else "pread:2*", 0.3)
                    os.truncate(self.folder / name, keep)
                    status, told = self.ends(process)
                    self.assertEqual(status, 74, (name, mapped, keep, told))
                    self.assertIn("shortened" if "shortened" in told else name, told)
                    self.assertEqual(self.bytes_of(names), [EARLIER] * 3)
                    self.assertEqual(self.left(), [])
                    (self.folder / name).write_bytes(bytes_)

    def test_changed_while_read(self):
        """A file that another program writes to meanwhile gives a part of either: 74."""
        for name in ("db1.npy", "marks2.npy", "scene.tif"):
            form = "tif" if name == "scene.tif" else "npy"
            self.put_earlier(FORMATS[form])
            for change in ("written", "replaced", "written with its time"):
                process = self.slowly(self.words(form), "fsync:1", 1)
                there = (self.folder / name).stat()
                bytes_ = (self.folder / name).read_bytes()
                if change != "replaced":
                    (self.folder / name).write_bytes(bytes_)
                    if change == "written with its time":
                        os.utime(self.folder / name, ns=(there.st_atime_ns, there.st_mtime_ns))
                else:
                    (self.folder / "other").write_bytes(bytes_)
                    os.replace(self.folder / "other", self.folder / name)
                status, told = self.ends(process)
                self.assertEqual(status, 74, (name, change, told))
                self.assertIn("changed while it was read", told)
                self.assertEqual(self.bytes_of(FORMATS[form]), [EARLIER] * 3)
                self.assertEqual(self.left(), [])

    def test_mapped_and_shortened_in_the_middle(self):
        """The page that is not there any more is met by whichever thread reads it, under a parent that blocks the signal too."""
        bytes_ = (self.folder / "db1.npy").read_bytes()
        for how in (lambda: None, lambda: signal.pthread_sigmask(signal.SIG_BLOCK, [signal.SIGBUS])):
            seen = 0
            for _ in range(12):
                process = self.slowly(["grey", "db1.npy", "marks1.npy", "--out", "o.npy", "--map"], "open:1", 0.1, "marks1.npy", preexec_fn=how)
                os.truncate(self.folder / "db1.npy", 5000)
                status, told = self.ends(process)
                self.assertEqual(status, 74, told)
                seen += "shortened while it was read" in told
                (self.folder / "db1.npy").write_bytes(bytes_)
            self.assertGreater(seen, 0)

    def test_other_programs_in_place_of_gdals(self):
        """Ended at once, silent without reading, echoing, flooding: the file's trouble."""
        for program in ("/bin/true", "/bin/false", "/bin/cat", "/usr/bin/yes", "/nowhere", "", "/dev/null", str(self.folder)):
            self.put_earlier(FORMATS["tif"])
            self.fails(74, "", *self.words("tif"), environment={"QUICKLOOK_GDAL": program}, timeout=60)
        # One that says that it made a file, and none or two of one name.
        script = self.folder / "fake"
        for files in ([], [""] * 2, ["", "/../x"], [".aux.xml"]):
            script.write_text(FAKE.format(python=sys.executable, files=files))
            script.chmod(0o755)
            self.put_earlier(FORMATS["tif"])
            self.fails(74, "GDAL made", "picture", "db1.npy", "marks1.npy", "db2.npy", "marks2.npy", "--out", "o.tif", environment={"QUICKLOOK_GDAL": str(script)}, timeout=60)

    def test_mapped(self):
        plain = self.done("stats", "db1.npy", "marks1.npy").stdout
        self.assertEqual(self.done("stats", "db1.npy", "marks1.npy", "--map").stdout, plain)
        self.done(*self.words("npy"))
        new = self.bytes_of(FORMATS["npy"])
        self.done(*self.words("npy"), "--map")
        self.assertEqual(self.bytes_of(FORMATS["npy"]), new)
        for words in (["stretch", "g1.npy"], ["pad", "g1.npy"], ["compose", "g1.npy", "g2.npy"], ["grey", "db1.npy", "marks1.npy", "--crop", "3,5,70,80"]):
            self.done(*words, "--out", "plain.npy")
            self.done(*words, "--out", "mapped.npy", "--map")
            self.assertEqual(*self.bytes_of(["plain.npy", "mapped.npy"]))

    def test_two_damaged_at_once(self):
        """No line of one thread's trouble is lost to another's."""
        for name in ("db1.tif", "db2.tif"):
            (self.folder / name).write_bytes((self.folder / "scene.tif").read_bytes()[:3000])
        for _ in range(40):
            self.fails(74, ".tif", "picture", "db1.tif:1", "db2.tif:1", "--marks", "auto", "--out", "o.png")

    def test_empty(self):
        """Rasters without pixels: to .npy and to a page, else a clear 74."""
        for rows, cols in ((5, 0), (0, 5), (0, 0)):
            numpy.save(self.folder / "e.npy", numpy.zeros((rows, cols)))
            numpy.save(self.folder / "m.npy", numpy.zeros((rows, cols), "u1"))
            numpy.save(self.folder / "g.npy", numpy.zeros((rows, cols), "u1"))
            numpy.save(self.folder / "i.npy", numpy.zeros((rows, cols), "f4"))
            commands = (["grey", "e.npy", "m.npy"], ["grey", "e.npy", "m.npy", "--depth", "16"], ["picture", "e.npy", "m.npy", "e.npy", "m.npy"], ["stretch", "g.npy"],
                        ["pad", "g.npy"], ["compose", "g.npy", "g.npy"], ["marks", "i.npy"], ["op", "sum", "i.npy", "i.npy"])
            for words in commands:
                self.done(*words, "--out", "o.npy")
                shape = (max(rows, cols),) * 2 if words[0] == "pad" else (rows, cols)
                self.assertEqual(numpy.load(self.folder / "o.npy").shape[:2], shape, words)
                os.unlink(self.folder / "o.npy")
                is_padded = words[0] == "pad" and max(rows, cols) > 0
                for name in ("o.tif", "o.png"):
                    if words[0] == "op" and name == "o.png":
                        continue
                    if is_padded:
                        self.done(*words, "--out", name)
                        os.unlink(self.folder / name)
                    else:
                        self.fails(74, f"cannot hold {rows} rows of {cols}", *words, "--out", name)
            self.fails(74, "cannot hold", "grey", "e.npy", "m.npy", "--out", "o.tif", "--cog")
            self.done("view", "e.npy", "m.npy", "--out", "o.html")
            self.done("view", "e.npy", "m.npy", "e.npy", "m.npy", "--out", "o.html")
            self.assertIn(b"valid   0", self.done("stats", "e.npy", "m.npy").stdout)
            self.assertEqual(self.done("window", "e.npy", "m.npy").stdout, b"blank\n")

    def test_no_address_space_for_standard_input(self):
        bytes_ = (self.folder / "db1.npy").read_bytes() * 200
        result = self.run_("stats", "-", "marks1.npy", input=bytes_, stdin=None, preexec_fn=lambda: resource.setrlimit(resource.RLIMIT_AS, (100 << 20, 100 << 20)))
        self.assertEqual(result.returncode, 71, result.stderr)
