"""The program `vectors` on files that are not the stored ones: what it counts, and that it needs no more memory for a longer file. The counts are those
that the program gave before the pass over the design (docs/LOOK-BACK.md), run on the same files. Usage: damaged_vectors.py PATH-OF-VECTORS"""
import os
import pathlib
import resource
import struct
import subprocess
import sys
import tempfile
import unittest

PROGRAM = os.path.abspath(sys.argv.pop(1))
STORED = pathlib.Path(__file__).parent.parent / "crates/vectors/data"


def listed(width, count, elements=b""):
    return struct.pack("<BI", width, count) + elements


def record(op, *lists, rows=0, cols=0):
    text = bytes([op, 0, 0, 0]) + struct.pack("<IIB", rows, cols, len(lists)) + b"".join(lists)
    return struct.pack("<I", len(text)) + text


def floats(*numbers):
    return listed(8, len(numbers), struct.pack(f"<{len(numbers)}d", *numbers))


GOOD = record(36, floats(-1.0), floats(1.0))
NOTHING = listed(8, 0)
# A file of records, and how many there are and differ.
NUMERIC = {
    "good": (GOOD, 1, 0),
    "length 0 alone": (bytes(4), 0, 0),
    "length 0 ends the file": (GOOD + bytes(4) + GOOD, 1, 0),
    "zeros behind a record": (GOOD + bytes(64), 1, 0),
    "cut off": (GOOD[:-1], 1, 1),
    "cut in its length": (GOOD + b"\1\0", 1, 0),
    "whole number in 8 bytes": (record(48, floats(3.0), listed(8, 1, struct.pack("<Q", 3))), 1, 0),
    "whole number in 1 byte": (record(48, floats(3.0), listed(1, 1, b"\3")), 1, 0),
    "byte in 8 bytes": (record(52, floats(3.0), listed(8, 1, struct.pack("<Q", 3))), 1, 0),
    "lists of width 0": (record(36, listed(0, 0), listed(0, 0)), 1, 0),
    "no value and no ends": (record(40, NOTHING, NOTHING, NOTHING), 1, 0),
    "one end": (record(40, floats(0.5), floats(0.0), floats(0.5)), 1, 1),
    "ends that nothing reads": (record(41, listed(4, 1, struct.pack("<f", 0.5)), listed(4, 0), listed(4, 1, struct.pack("<f", 1.0))), 1, 0),
    "longer second list": (record(38, floats(1.0), floats(2.0, 3.0), floats(2.0)), 1, 0),
    "a step that is none, empty": (record(99, NOTHING, NOTHING), 1, 0),
    "a step that is none": (record(99, floats(1.0), floats(1.0)), 1, 1),
    "more than 65,536 bytes": (record(36, floats(*[-1.0] * 4096), floats(*[1.0] * 4096)), 1, 1),
    "more than 4,096 elements": (record(52, floats(*[3.0] * 4097), listed(1, 4097, b"\3" * 4097)), 1, 1),
    "4,096 elements": (record(52, floats(*[3.0] * 4096), listed(1, 4096, b"\3" * 4096)), 1, 0),
    "more than a million records": (struct.pack("<IB", 1, 1) * 1000001, 1000000, 1000000),
}
CLAHE = {
    "no tile": (record(18, NOTHING, listed(1, 0), listed(4, 0), NOTHING), 1, 1),
    "one tile": (record(18, NOTHING, listed(1, 0), listed(4, 1, bytes(4)), floats(*[0.0] * 256)), 1, 1),
    "no columns": (record(19, NOTHING, listed(1, 0), NOTHING, rows=7), 1, 1),
    "no rows": (record(19, NOTHING, listed(1, 0), NOTHING, cols=7), 1, 0),
    "65 by 65": (record(19, floats(*[0.0] * 4225), listed(1, 4225, bytes(4225)), floats(*[0.0] * 4225), rows=65, cols=65), 1, 1),
}


class Damaged(unittest.TestCase):
    def setUp(self):
        self.folder = tempfile.TemporaryDirectory()
        self.addCleanup(self.folder.cleanup)

    def run_on(self, numeric, clahe, most=None):
        for name, text in (("numeric.bin", numeric), ("clahe.bin", clahe)):
            pathlib.Path(self.folder.name, name).write_bytes(text)
        limit = None if most is None else lambda: resource.setrlimit(resource.RLIMIT_AS, (most, most))
        run = subprocess.run([PROGRAM], cwd=self.folder.name, capture_output=True, text=True, timeout=120, preexec_fn=limit)
        return run.returncode, run.stdout, run.stderr

    def said(self, numeric, clahe):
        return 0, "".join(f"{name}: {records} records, {differ} differ\n" for name, records, differ in (("numeric", *numeric), ("clahe", *clahe))), ""

    def test_numeric(self):
        for name, (text, records, differ) in NUMERIC.items():
            with self.subTest(name):
                self.assertEqual(self.run_on(text, b""), self.said((records, differ), (0, 0)))

    def test_clahe(self):
        for name, (text, records, differ) in CLAHE.items():
            with self.subTest(name):
                self.assertEqual(self.run_on(b"", text), self.said((0, 0), (records, differ)))

    def test_long_file_in_little_memory(self):
        stored, clahe = (STORED / "numeric.bin").read_bytes(), (STORED / "clahe.bin").read_bytes()
        self.assertEqual(self.run_on(stored * 80, clahe, 16000 * 1024), self.said((4800, 0), (67, 0)))

    def test_no_file(self):
        run = subprocess.run([PROGRAM], cwd=self.folder.name, capture_output=True, text=True, timeout=120)
        self.assertEqual((run.returncode, run.stdout), (1, ""))


unittest.main(verbosity=0)
