"""The program `quicklook` as people use it: files in and out, refusals, damaged files. Usage: host.py PATH-OF-QUICKLOOK"""
import json
import os
import pathlib
import re
import resource
import struct
import subprocess
import sys
import tempfile
import unittest
from fractions import Fraction

import numpy
from osgeo import gdal
from PIL import Image

PROGRAM = os.path.abspath(sys.argv.pop(1))
STRATEGIES = ["standard", "robust", "adaptive", "equalized", "clahe", "tamed", "default"]


class Case(unittest.TestCase):
    def setUp(self):
        self.folder = tempfile.TemporaryDirectory()
        self.addCleanup(self.folder.cleanup)

    def at(self, name):
        return os.path.join(self.folder.name, name)

    def save(self, name, array):
        numpy.save(self.at(name), array)
        return self.at(name)

    def run_program(self, *words):
        return subprocess.run([PROGRAM, *map(str, words)], capture_output=True, text=True, cwd=self.folder.name)

    def done(self, *words):
        result = self.run_program(*words)
        self.assertEqual(result.returncode, 0, result.stderr)
        self.assertEqual(result.stderr, "")
        return result.stdout

    def fails(self, status, text, *words):
        result = self.run_program(*words)
        self.assertEqual(result.returncode, status, result.stderr)
        self.assertIn(text, result.stderr)
        self.assertNotIn("panicked", result.stderr)
        return result.stderr

    def scene(self, rows=16, cols=24):
        """Two bands with marks, as file names; random but the same each time."""
        source = numpy.random.default_rng(rows * 1000 + cols)
        names = []
        for band in (1, 2):
            names.append(self.save(f"db{band}.npy", source.uniform(-25, 0, (rows, cols))))
            names.append(self.save(f"marks{band}.npy", (source.uniform(size=(rows, cols)) < 0.9).astype(numpy.uint8)))
        return names


class Samples(Case):
    """Samples of document 01 through files."""

    def test_statistics(self):
        text = self.done("stats", self.save("db.npy", numpy.array([[0.0, 10.0]])), self.save("m.npy", numpy.ones((1, 2), numpy.uint8)))
        found = {name: words for name, *words in (line.split() for line in text.splitlines())}
        self.assertEqual(len(found), 16)
        self.assertEqual((found["valid"], found["p05"], found["p95"]), (["2"], ["0", "bin", "0"], ["9.99755859375", "bin", "4095"]))
        told = json.loads(self.done("stats", "--json", self.at("db.npy"), self.at("m.npy")))
        self.assertEqual((told["p05_bin"], told["p95_bin"], told["max_row"], told["max_col"]), (0, 4095, 0, 1))
        self.assertEqual(found["max"], ["10", "row", "0", "column", "1"])
        blank = self.done("stats", self.at("db.npy"), self.save("none.npy", numpy.zeros((1, 2), numpy.uint8)))
        self.assertIn("max     0\n", blank)

    def test_strongest_echo(self):
        """The first of NumPy's greatest valid decibels, also of a part."""
        db = numpy.round(numpy.random.default_rng(5).normal(-12, 2, (31, 17)))
        marks = (numpy.random.default_rng(6).uniform(size=db.shape) < 0.7).astype(numpy.uint8)
        files = self.save("db.npy", db), self.save("m.npy", marks)
        for rows, cols, words in ((slice(0, 31), slice(0, 17), ()), (slice(9, 21), slice(4, 16), ("--crop", "9,4,12,12"))):
            part = numpy.where(marks == 1, db, -numpy.inf)[rows, cols]
            row, col = numpy.unravel_index(part.argmax(), part.shape)
            told = json.loads(self.done("stats", "--json", *files, *words))
            self.assertEqual((told["max_row"], told["max_col"], told["max"]), (row, col, part[row, col]))
            text = f"row {row} column {col}" + (f" (row {row + 9} column {col + 4} of the file)" if words else "")
            self.assertIn(f"max     {part[row, col]:g}  {text}\n", self.done("stats", *files, *words))

    def test_histogram(self):
        """The counts are NumPy's over the same steps; a flat scene stands in bin 0, a blank one nowhere."""
        db = numpy.random.default_rng(3).normal(-12, 4, (40, 50))
        marks = (numpy.random.default_rng(4).uniform(size=db.shape) < 0.8).astype(numpy.uint8)
        files = self.save("db.npy", db), self.save("m.npy", marks)
        told = json.loads(self.done("histogram", "--json", *files))
        valid = db[marks == 1]
        self.assertEqual((told["valid"], told["min"], told["max"], len(told["counts"]), sum(told["counts"])), (valid.size, valid.min(), valid.max(), 4096, valid.size))
        bins = numpy.minimum(numpy.trunc((valid - valid.min()) * (1 / (valid.max() - valid.min())) * 4096), 4095).astype(int)
        self.assertEqual(told["counts"], numpy.bincount(bins, minlength=4096).tolist())
        lines = [line.split() for line in self.done("histogram", *files).splitlines()]
        self.assertEqual([int(count) for _, count in lines[3:]], told["counts"])
        stats = json.loads(self.done("stats", "--json", *files))
        for name, fraction in (("p05", 0.05), ("p95", 0.95)):
            before = sum(told["counts"][: stats[name + "_bin"]])
            self.assertTrue(before <= int(fraction * valid.size) < before + told["counts"][stats[name + "_bin"]])
        flat = json.loads(self.done("histogram", "--json", self.save("flat.npy", numpy.full((2, 3), 7.5)), self.save("all.npy", numpy.ones((2, 3), bool))))
        self.assertEqual((flat["counts"][0], sum(flat["counts"])), (6, 6))
        blank = json.loads(self.done("histogram", "--json", self.at("flat.npy"), self.save("none.npy", numpy.zeros((2, 3), bool))))
        self.assertEqual(sum(blank["counts"]), 0)
        self.fails(3, "m8.npy", "histogram", self.at("flat.npy"), self.save("m8.npy", numpy.full((2, 3), 2, numpy.uint8)))

    def test_window(self):
        marks = self.save("m.npy", numpy.ones((1, 2), bool))
        text = self.done("window", self.save("db.npy", numpy.array([[0.0, 10.0]])), marks)
        self.assertEqual(text.split(), ["low", "0", "high", "9.99755859375", "range", "9.99755859375", "gamma", "1"])
        blank = self.save("none.npy", numpy.zeros((1, 2), bool))
        self.assertEqual(self.done("window", self.at("db.npy"), blank), "blank\n")

    def test_grey(self):
        db = self.save("db.npy", numpy.array([[0.0, 0.5]]))
        marks = self.save("m.npy", numpy.ones((1, 2), numpy.uint8))
        self.done("grey", db, marks, "--depth", "16", "--out", self.at("g.png"))
        self.assertEqual(list(Image.open(self.at("g.png")).getdata()), [0, 32759])
        self.done("grey", db, marks, "--out", self.at("g.npy"))
        self.assertEqual(numpy.load(self.at("g.npy")).tolist(), [[0, 255]])

    def test_grey_of_other_gammas(self):
        """Little contrast under Standard (1.1), a wide scene (0.9): each byte by whole numbers; at 16 bits 6, and the message says what helps."""
        for gamma, (p, q), db in (("1.1", (11, 10), numpy.linspace(0.0, 14.0, 57)), ("0.9", (9, 10), numpy.linspace(-30.0, 30.0, 61))):
            name, marks = self.save("db.npy", db[None]), self.save("m.npy", numpy.ones((1, db.size), numpy.uint8))
            low, high, range_, chosen = self.done("window", name, marks, "--strategy", "standard").split()[1::2]
            self.assertEqual(chosen, gamma)
            t = [Fraction((max(min(v, float(high)), float(low)) - float(low)) / float(range_)) for v in db.tolist()]
            values = [max(k for k in range(256) if k**q <= 255**q * x**p) for x in t]
            self.assertEqual((min(values), max(values)), (0, 255))
            self.done("grey", name, marks, "--strategy", "standard", "--out", self.at("g.npy"))
            self.assertEqual(numpy.load(self.at("g.npy")).tolist(), [values])
            self.fails(6, f"chooses gamma {gamma}; at 16 bits only gamma 1.0 is painted. Take --depth 8", "grey", name, marks, "--strategy", "standard", "--depth", "16", "--out", self.at("g.npy"))

    def test_stretch(self):
        self.done("stretch", self.save("g.npy", numpy.array([[0, 1, 2]], numpy.uint16)), "--out", self.at("s.npy"))
        self.assertEqual(numpy.load(self.at("s.npy")).tolist(), [[0, 128, 255]])

    def test_compose(self):
        one, two = self.save("a.npy", numpy.array([[255, 1]], numpy.uint8)), self.save("b.npy", numpy.array([[1, 1]], numpy.uint8))
        self.done("compose", one, two, "--mode", "rgb-ratio", "--out", self.at("c.npy"))
        self.assertEqual(numpy.load(self.at("c.npy")).tolist(), [[[255, 2, 99], [5, 2, 67]]])

    def test_pad(self):
        self.done("pad", self.save("g.npy", numpy.array([[1, 2]], numpy.uint8)), "--out", self.at("p.npy"))
        self.assertEqual(numpy.load(self.at("p.npy")).tolist(), [[1, 2], [0, 0]])
        self.done("pad", self.save("w.npy", numpy.array([[1, 2]], numpy.uint16)), "--out", self.at("w.png"))
        self.assertEqual(numpy.array(Image.open(self.at("w.png"))).tolist(), [[1, 2], [0, 0]])

    def test_marks(self):
        values = numpy.array([[0x3727C5AC, 0x3727C5AD, 0x7FC00000, 0x7F800000]], numpy.uint32).view(numpy.float32)
        self.done("marks", self.save("i.npy", values), "--out", self.at("m.npy"))
        self.assertEqual(numpy.load(self.at("m.npy")).tolist(), [[0, 1, 0, 1]])

    def test_op(self):
        a, b = self.save("a.npy", numpy.array([[6, 1]], numpy.float32)), self.save("b.npy", numpy.array([[3, 0]], numpy.float32))
        expected = {"sum": [9, 1], "diff": [3, 1], "ratio": [2, 0], "n-diff": [numpy.float32(3) / numpy.float32(9), 1], "log-ratio": [2, 0]}
        for name, result in expected.items():
            self.done("op", name, a, b, "--out", self.at("r.npy"))
            self.assertEqual(numpy.load(self.at("r.npy")).tolist(), [numpy.array(result, numpy.float32).tolist()], name)
            self.done("op", name, a, b, "--out", self.at("r.tif"))
            self.assertEqual(numpy.array(Image.open(self.at("r.tif"))).tolist(), [numpy.array(result, numpy.float32).tolist()], name)


class Files(Case):
    """The same bytes whatever the file type; the picture's parts agree with the single commands."""

    def test_outputs_agree(self):
        db1, marks1, db2, marks2 = self.scene()
        for strategy in STRATEGIES:
            if self.run_program("grey", db1, marks1, "--strategy", strategy, "--out", self.at("probe.npy")).returncode == 6:
                continue
            for depth in ("8", "16"):
                for ending in ("npy", "png", "tif"):
                    self.done("grey", db1, marks1, "--strategy", strategy, "--depth", depth, "--out", self.at(f"g{depth}.{ending}"))
                whole = numpy.load(self.at(f"g{depth}.npy"))
                self.assertEqual(whole.dtype, numpy.uint8 if depth == "8" else numpy.uint16)
                for ending in ("png", "tif"):
                    self.assertTrue((numpy.array(Image.open(self.at(f"g{depth}.{ending}"))) == whole).all(), (strategy, depth, ending))

    def test_picture_parts(self):
        db1, marks1, db2, marks2 = self.scene()
        for strategy in ("robust", "equalized", "clahe", "default"):
            words = ["picture", db1, marks1, db2, marks2, "--strategy", strategy, "--mode", "sar-urban"]
            self.done(*words, "--out", self.at("c.npy"), "--grey1", self.at("g1.npy"), "--grey2", self.at("g2.npy"))
            self.done(*words, "--out", self.at("c.png"))
            colours = numpy.load(self.at("c.npy"))
            self.assertEqual(colours.shape, (16, 24, 3))
            self.assertTrue((numpy.array(Image.open(self.at("c.png"))) == colours).all())
            for band, (db, marks) in enumerate(((db1, marks1), (db2, marks2)), 1):
                self.done("grey", db, marks, "--strategy", strategy, "--out", self.at("one.npy"))
                self.assertTrue((numpy.load(self.at("one.npy")) == numpy.load(self.at(f"g{band}.npy"))).all())
            self.done("compose", self.at("g1.npy"), self.at("g2.npy"), "--strategy", strategy, "--out", self.at("again.npy"))
            self.assertTrue((numpy.load(self.at("again.npy")) == colours).all())

    def test_tiff_input(self):
        db, marks, _, _ = self.scene()
        single = numpy.load(db).astype(numpy.float32)
        Image.fromarray(single).save(self.at("db.tif"))
        self.save("wide.npy", single.astype(numpy.float64))
        self.assertEqual(self.done("stats", self.at("db.tif"), marks), self.done("stats", self.at("wide.npy"), marks))
        Image.fromarray(numpy.load(marks)).save(self.at("marks.png"))
        self.assertEqual(self.done("stats", db, self.at("marks.png")), self.done("stats", db, marks))

    def test_demo(self):
        text = self.done("demo", self.at("scene"), "--side", "64")
        self.assertIn("valid", text)
        for name in ("default-rgb.png", "tamed-rgb.png", "clahe-rgb.png", "vv-grey16.png", "vh.npy"):
            self.assertTrue(os.path.exists(self.at("scene/" + name)), name)
        with Image.open(self.at("scene/default-rgb.png")) as image:
            self.assertEqual(image.size, (64, 64))


def percentile(valid, fraction):
    """Document 01's, off the curve of 4,096 bins."""
    least, width = valid.min(), (valid.max() - valid.min()) / 4096
    bins = numpy.minimum(numpy.trunc((valid - least) * (1 / (valid.max() - least)) * 4096), 4095).astype(int)
    counts = numpy.bincount(bins, minlength=4096)
    target = min(int(fraction * valid.size), valid.size - 1)
    bin_ = int(numpy.searchsorted(counts.cumsum(), target, side="right"))
    return (least + bin_ * width) + (target - counts[:bin_].sum()) / counts[bin_] * width


class CoPol(Case):
    """--copol says which band has the co-pol window of a Tamed picture, and moves nothing else."""

    def greys(self, scene, *words):
        """Of both bands, and the colours."""
        outs = ["--out", self.at("c.npy"), "--grey1", self.at("g1.npy"), "--grey2", self.at("g2.npy")]
        self.done("picture", *scene, *words, *outs)
        return [numpy.load(self.at(name)) for name in ("g1.npy", "g2.npy", "c.npy")]

    def test_tamed(self):
        """The windows by NumPy, from p02 for the co-pol band and from p05 for the other; the greys by them; all told in what is written."""
        scene = self.scene(40, 50)
        colours = []
        for copol in (1, 2):
            words = ("--strategy", "tamed", "--copol", copol)
            *greys, rgb = self.greys(scene, *words)
            self.done("picture", *scene, *words, "--out", self.at("c.png"))
            self.done("picture", *scene, *words, "--out", self.at("c.tif"))
            with Image.open(self.at("c.png")) as image:
                self.assertTrue((numpy.array(image) == rgb).all())
                told = [{name: str(text) for name, text in image.text.items()}, gdal.Open(self.at("c.tif")).GetMetadata()]
            colours.append(rgb)
            for band, grey in enumerate(greys, 1):
                db, marks = (numpy.load(name) for name in scene[2 * band - 2 : 2 * band])
                low, high = (percentile(db[marks == 1], fraction) for fraction in (0.02 if band == copol else 0.05, 0.99))
                expected = numpy.where(marks == 1, numpy.trunc((numpy.clip(db, low, high) - low) / (high - low) * 255), 0)
                self.assertEqual(grey.tolist(), expected.tolist(), (copol, band))
                for items in told:
                    self.assertEqual([float(word) for word in items[f"quicklook_window{band}"].split()], [low, high, high - low, 1.0])
                    self.assertEqual((items["quicklook_copol"], items["quicklook_strategy"]), (f"band {copol}", "tamed"))
        self.assertFalse((colours[0] == colours[1]).all())
        self.assertTrue((self.greys(scene, "--strategy", "tamed")[2] == colours[0]).all())

    def test_swapped(self):
        """Files and choice swapped, the greys swap, also of a raster of two bands; red stays band 1's."""
        scene = self.scene(40, 50)
        one = self.greys(scene, "--strategy", "tamed", "--copol", "1")
        two = self.greys(scene[2:] + scene[:2], "--strategy", "tamed", "--copol", "2")
        self.assertTrue((one[0] == two[1]).all() and (one[1] == two[0]).all())
        self.assertFalse((one[2] == two[2]).all())
        # red follows from the grey of band 1 alone
        for grey, _, rgb in (one, two):
            self.assertTrue(all(len(set(rgb[..., 0][grey == level].tolist())) == 1 for level in set(grey.ravel().tolist())))
        both = gdal.GetDriverByName("GTiff").Create(self.at("both.tif"), 50, 40, 2, gdal.GDT_Float64)
        for band in (1, 2):
            db, marks = (numpy.load(name) for name in scene[2 * band - 2 : 2 * band])
            both.GetRasterBand(band).WriteArray(numpy.where(marks == 1, db, numpy.nan))
        both = None
        words = ["--marks", "auto", "--strategy", "tamed", "--copol", "2"]
        outs = ["--out", self.at("b.npy"), "--grey1", self.at("b1.npy"), "--grey2", self.at("b2.npy")]
        self.assertEqual(self.run_program("picture", self.at("both.tif"), *words, *outs).returncode, 0)
        other = self.greys(scene, "--strategy", "tamed", "--copol", "2")
        self.assertTrue(all((numpy.load(self.at(name)) == grey).all() for name, grey in zip(("b1.npy", "b2.npy", "b.npy"), other)))

    def pages(self, scene, strategy):
        """The pages of both choices, without what names the choice."""
        pages = []
        for copol in "12":
            self.done("view", *scene, "--strategy", strategy, "--copol", copol, "--out", self.at("p.html"))
            page = pathlib.Path(self.at("p.html")).read_bytes()
            self.assertEqual(page.count(f"co-pol band {copol}".encode()), 1)
            pages.append(re.sub(rb'(co-pol |copol"[:,] ?")band [12]', b"", page))
        return pages

    def test_other_strategies(self):
        scene = self.scene()
        for strategy in STRATEGIES:
            if strategy == "tamed":
                self.assertNotEqual(*self.pages(scene, strategy))
                continue
            self.assertEqual(*self.pages(scene, strategy), strategy)
            made = []
            for words in ((), ("--copol", "1"), ("--copol", "2")):
                self.greys(scene, "--strategy", strategy, *words)
                made.append([pathlib.Path(self.at(name)).read_bytes() for name in ("g1.npy", "g2.npy", "c.npy")])
            self.assertEqual(made, [made[0]] * 3, strategy)

    def test_default(self):
        """Without the option each output is that of band 1, and says so; a grey of one band has no co-pol band."""
        scene = self.scene()
        for out in ("c.png", "c.tif", "page.html"):
            command = "view" if out == "page.html" else "picture"
            made = []
            for words in ((), ("--copol", "1")):
                self.done(command, *scene, "--strategy", "tamed", *words, "--out", self.at(out))
                made.append(pathlib.Path(self.at(out)).read_bytes())
            self.assertEqual(*made)
            self.assertIn(b"quicklook_copol", made[0])
        self.done("grey", *scene[:2], "--strategy", "tamed", "--out", self.at("g.png"))
        with Image.open(self.at("g.png")) as image:
            self.assertNotIn("quicklook_copol", image.text)

    def test_wrong_use(self):
        scene = self.scene()
        before = sorted(os.listdir(self.folder.name))
        for command, out in (("picture", "c.npy"), ("view", "page.html")):
            for word in ("0", "3", "12", "-1", "", "band1", "vv"):
                self.fails(64, "--copol", command, *scene, "--out", self.at(out), f"--copol={word}")
            self.fails(64, "--copol", command, *scene, "--out", self.at(out), "--copol")
            self.fails(64, "--copol", command, *scene, "--out", self.at(out), "--copol", "1", "--copol", "2")
        for words in (("grey", *scene[:2], "--out", self.at("g.npy")), ("window", *scene[:2]), ("compose", *scene[1::2], "--out", self.at("c.npy"))):
            self.fails(64, "--copol", *words, "--copol", "1")
        self.assertEqual(sorted(os.listdir(self.folder.name)), before)

    def test_page_of_one_band(self):
        """It has no band 2 to be co-pol, and is not changed by a band 1 that is."""
        db, marks, *_ = self.scene()
        for words in ((db, marks, "--strategy", "tamed"), (db, "--marks", "auto")):
            self.fails(64, f"{db}: one band, and --copol 2 takes two", "view", *words, "--copol", "2", "--out", self.at("page.html"))
        self.assertFalse(os.path.exists(self.at("page.html")))
        pages = []
        for words in ((), ("--copol", "1")):
            self.done("view", db, marks, "--strategy", "tamed", *words, "--out", self.at("page.html"))
            pages.append(pathlib.Path(self.at("page.html")).read_bytes())
        self.assertEqual(*pages)
        self.assertNotIn(b"copol", pages[0])


class Refusals(Case):
    """A refusal exits with its number, says what it means and writes nothing."""

    def refused(self, number, db, marks, *more):
        self.save("db.npy", db)
        self.save("m.npy", marks)
        out = self.at("kept.npy")
        with open(out, "wb") as file:
            file.write(b"an earlier file")
        self.fails(number, f"refused {number}: ", "grey", self.at("db.npy"), self.at("m.npy"), "--out", out, *more)
        with open(out, "rb") as file:
            self.assertEqual(file.read(), b"an earlier file")
        self.assertEqual(sorted(os.listdir(self.folder.name)), ["db.npy", "kept.npy", "m.npy"])

    def test_numbers(self):
        ones = numpy.ones((1, 2), numpy.uint8)
        self.refused(1, numpy.zeros((1, 4097)), numpy.ones((1, 4097), numpy.uint8))
        self.refused(1, numpy.zeros((5000, 0)), numpy.ones((5000, 0), numpy.uint8))
        self.refused(3, numpy.zeros((1, 2)), ones + 1)
        self.refused(4, numpy.array([[0.0, numpy.nan]]), ones)
        self.refused(4, numpy.array([[0.0, 1000.0000001]]), ones)
        self.refused(5, numpy.array([[0.0, 1.0]]), ones, "--strategy", "clahe")
        self.refused(6, numpy.array([[0.0, 14.0]]), ones, "--strategy", "standard", "--depth", "16")

    def test_too_many_for_a_list(self):
        name = self.at("long.npy")
        header = b"{'descr': '<f4', 'fortran_order': False, 'shape': (1, 16777217), }"
        header += b" " * (117 - len(header)) + b"\n"
        with open(name, "wb") as file:
            file.write(b"\x93NUMPY\x01\x00" + struct.pack("<H", len(header)) + header)
            file.truncate(10 + len(header) + 4 * 16777217)
        self.fails(2, "refused 2: ", "marks", name, "--out", self.at("m.npy"))
        self.assertFalse(os.path.exists(self.at("m.npy")))


class Damaged(Case):
    """Files that are not what they should be: a clear message and 74, never a panic."""

    def test_headers(self):
        db, marks, _, _ = self.scene()
        whole = pathlib.Path(db).read_bytes()
        for cut in (0, 1, 5, 6, 7, 8, 9, 10, 11, 20, 64, 127, 128, 129, len(whole) - 1):
            pathlib.Path(self.at("cut.npy")).write_bytes(whole[:cut])
            self.fails(74, "cut.npy", "stats", self.at("cut.npy"), marks)
        source = numpy.random.default_rng(3)
        for _ in range(200):
            bytes_ = bytearray(whole)
            for _ in range(3):
                bytes_[source.integers(0, 128)] = source.integers(0, 256)
            pathlib.Path(self.at("bent.npy")).write_bytes(bytes_)
            result = self.run_program("stats", self.at("bent.npy"), marks)
            self.assertIn(result.returncode, (0, 74), result.stderr)
            self.assertNotIn("panicked", result.stderr)

    def test_kinds(self):
        db, marks, _, _ = self.scene()
        array = numpy.load(db)
        for name, other in {"flat": array.ravel(), "cube": array[None], "text": array.astype(str)}.items():
            self.fails(74, name, "stats", self.save(name + ".npy", other), marks)
        self.fails(3, "m8.npy", "stats", db, self.save("m8.npy", array))
        self.fails(2, "short.npy has 16 rows of 23, but " + db + " has 16 rows of 24", "stats", db, self.save("short.npy", numpy.ones((16, 23), numpy.uint8)))
        self.fails(74, "nowhere.npy", "stats", self.at("nowhere.npy"), marks)
        self.fails(74, "nowhere.tif", "stats", self.at("nowhere.tif"), marks)
        self.fails(74, self.folder.name, "stats", self.folder.name, marks)

    def test_pictures(self):
        db, marks, _, _ = self.scene()
        image = Image.fromarray(numpy.load(db).astype(numpy.float32))
        for ending in ("tif", "png"):
            (image if ending == "tif" else image.convert("L")).save(self.at("whole." + ending))
            whole = pathlib.Path(self.at("whole." + ending)).read_bytes()
            source = numpy.random.default_rng(5)
            for k in range(60):
                bytes_ = bytearray(whole)
                if k % 2:
                    bytes_ = bytes_[: source.integers(8, len(whole))]
                else:
                    for _ in range(4):
                        bytes_[source.integers(4, len(bytes_))] = source.integers(0, 256)
                pathlib.Path(self.at("bent." + ending)).write_bytes(bytes_)
                command = ["stats", self.at("bent.tif"), marks] if ending == "tif" else ["stretch", self.at("bent.png"), "--out", self.at("o.npy")]
                result = self.run_program(*command)
                self.assertIn(result.returncode, (0, 1, 2, 3, 4, 74), result.stderr)
                self.assertNotIn("panicked", result.stderr)
        Image.new("RGB", (4, 4)).save(self.at("colour.png"))
        self.fails(64, "colour.png:3", "stretch", self.at("colour.png"), "--out", self.at("o.npy"))

    def test_gdal_process(self):
        """A GDAL process that is missing, says nothing, says nonsense for ever, or hands the request back is the file's trouble."""
        db, marks, _, _ = self.scene()
        Image.fromarray(numpy.load(db).astype(numpy.float32)).save(self.at("db.tif"))
        for program in (self.at("nowhere"), "/usr/bin/true", "/usr/bin/yes", "/usr/bin/cat"):
            for words in (("stats", self.at("db.tif"), marks), ("grey", db, marks, "--out", self.at("grey.tif"))):
                result = subprocess.run([PROGRAM, *words], capture_output=True, text=True, timeout=60, env={**os.environ, "QUICKLOOK_GDAL": program})
                self.assertEqual(result.returncode, 74, (program, result.stderr))
                self.assertNotIn("panicked", result.stderr)
        self.assertEqual([name for name in os.listdir(self.folder.name) if "grey" in name], [])

    def test_no_room(self):
        """A file that cannot be written to its end, by the program or by GDAL's process: 74, the earlier file as it was, nothing left beside it."""
        db, marks, _, _ = self.scene(600, 800)
        georeferenced = gdal.GetDriverByName("GTiff").Create(self.at("db.tif"), 800, 600, 1, gdal.GDT_Float32)
        georeferenced.SetGeoTransform((500000.0, 10.0, 0.0, 5200000.0, 0.0, -10.0))
        georeferenced.GetRasterBand(1).WriteArray(numpy.load(db))
        georeferenced = None
        for name, more in (("g.npy", ()), ("g.png", ()), ("g.png", ("--world",)), ("g.tif", ()), ("g.tif", ("--cog",))):
            for room in (0, 4096, 100_000):
                pathlib.Path(self.at(name)).write_bytes(b"an earlier file")
                before = sorted(os.listdir(self.folder.name))
                # Python ignores SIGXFSZ, and so does the program where that is handed on: writes beyond the limit fail.
                result = subprocess.run([PROGRAM, "grey", self.at("db.tif"), marks, *more, "--out", self.at(name)], capture_output=True, text=True,
                                        restore_signals=False, preexec_fn=lambda: resource.setrlimit(resource.RLIMIT_FSIZE, (room, room)))
                self.assertEqual(result.returncode, 74, (name, more, room, result.stderr))
                self.assertNotIn("panicked", result.stderr)
                self.assertEqual(pathlib.Path(self.at(name)).read_bytes(), b"an earlier file")
                self.assertEqual(sorted(os.listdir(self.folder.name)), before, (name, more, room))
            self.done("grey", self.at("db.tif"), marks, *more, "--out", self.at(name))
            for made in pathlib.Path(self.folder.name).glob("g.*"):
                made.unlink()

    def test_outputs(self):
        db, marks, _, _ = self.scene()
        self.fails(74, "no/such", "grey", db, marks, "--out", self.at("no/such/folder.png"))
        self.fails(64, "ends in", "grey", db, marks, "--out", self.at("grey.jpeg"))
        self.assertEqual(self.run_program("grey", db, marks, "--out", self.at("g.png"), "--strategy", "none").returncode, 64)
        self.assertEqual(self.run_program("grey").returncode, 64)
        self.assertEqual(self.run_program("--help").returncode, 0)
        self.assertIn("quicklook demo scene", self.done("--help"))

    def test_view_refuses_without_a_page(self):
        one = self.save("db.npy", numpy.array([[0.0, 14.0]]))
        marks = self.save("m.npy", numpy.ones((1, 2), numpy.uint8))
        self.fails(5, "refused 5: ", "view", one, marks, "--strategy", "clahe", "--out", self.at("page.html"))
        self.assertFalse(os.path.exists(self.at("page.html")))


if __name__ == "__main__":
    unittest.main(verbosity=1)
