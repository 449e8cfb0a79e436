"""A floating-point environment of somebody else's in every thread changes no byte and ends nothing."""
import numpy

from faults.common import FORMATS, Case


class Floats(Case):
    rows, cols = 210, 260

    def setUp(self):
        super().setUp()
        # NaN that traps under 0 marks, and decibels so small that flushing them to zero would show.
        for band in (1, 2):
            db = numpy.load(self.folder / f"db{band}.npy")
            marks = numpy.load(self.folder / f"marks{band}.npy")
            bits = db.view("u8")
            bits[marks == 0] = 0x7ff0000000000001
            numpy.save(self.folder / f"db{band}.npy", db)
        small = numpy.full((16, 16), 3e-310)
        small[0] = -2e-311
        numpy.save(self.folder / "small.npy", small)
        numpy.save(self.folder / "ones.npy", numpy.ones((16, 16), "u1"))

    def test_every_mode(self):
        commands = [["stats", "db1.npy", "marks1.npy"], ["stats", "small.npy", "ones.npy"], ["window", "db1.npy", "marks1.npy", "--strategy", "adaptive"],
                    ["histogram", "db1.npy", "marks1.npy"], ["histogram", "small.npy", "ones.npy"], ["window", "small.npy", "ones.npy"], ["stats", "scene.tif:1", "--marks", "auto"]]
        told = [self.done(*words).stdout for words in commands]
        self.assertIn(b"mean", told[0])
        bytes_ = {}
        for form in ("npy", "tif", "html"):
            for strategy in ("default", "tamed", "clahe"):
                self.done(*self.words(form), "--strategy", strategy)
                bytes_[form, strategy] = self.bytes_of(FORMATS[form])
        for mode in ("up", "flush", "trap"):
            for words, plain in zip(commands, told):
                self.assertEqual(self.done(*words, environment={"FAULT_FLOAT": mode}).stdout, plain, (mode, words))
            for (form, strategy), plain in bytes_.items():
                for threads in ({}, {"FAULT": "thread:1*:11"}):
                    self.done(*self.words(form), "--strategy", strategy, environment={"FAULT_FLOAT": mode, **threads})
                    self.assertEqual(self.bytes_of(FORMATS[form]), plain, (mode, form, strategy))
