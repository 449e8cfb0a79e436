"""What is refused, damaged files and flipped bits."""
import os
import pathlib
import re
import shutil
import struct
import zlib

import numpy
from osgeo import gdal
from PIL import Image

from rasters.files import (Case, copied, decibels, float_predicted, gdal_marks, gdal_read, marks_of, netcdf, npy_header, packed, place, png,
    raw_tiff, shapes, strips, values)
from rasters.marks import sparse
from rasters.variants import with_mask


def band_says(unit=None, description=None, scale=None, offset=None):
    def change(file):
        band = file.GetRasterBand(1)
        for word, setter in ((unit, band.SetUnitType), (description, band.SetDescription), (scale, band.SetScale), (offset, band.SetOffset)):
            if word is not None:
                setter(word)
    return change


def colour_table(file):
    table = gdal.ColorTable()
    for index in range(256):
        table.SetColorEntry(index, (index, 255 - index, 0, 255))
    file.GetRasterBand(1).SetColorTable(table)


class Refused(Case):
    """What is not decibels, not whole or not of the right sides is refused, with its number and a message; nothing is written."""

    def test_complex(self):
        cases = []
        for index, kind in enumerate((gdal.GDT_CFloat32, gdal.GDT_CFloat64, gdal.GDT_CInt16, gdal.GDT_CInt32)):
            name = self.tiff(f"c{index}.tif", decibels(20, 30).astype("c8"), kind=kind)
            cases += [(74, ["complex", rf"c{index}\.tif"], ("read", name)), (74, ["complex"], ("stats", name, "--marks", "auto")),
                      (74, ["complex"], ("read", name, "--as-decibels"))]
        cases.append((74, [r"z\.npy"], ("read", self.save("z.npy", decibels(20, 30).astype("c8")))))
        self.all_refused(cases)

    def test_units_and_descriptions(self):
        array, cases = decibels(20, 30), []
        bad = [("unit", word) for word in ("intensity", "m", "linear", "1", "degree")]
        bad += [("description", word) for word in ("Sigma0 linear power", "Intensity_VV", "amplitude", "VV Magnitude", "gamma0-POWER",
                                                   "Amplitude_VH")]
        good = [("unit", "dB"), ("unit", "decibel"), ("description", "Intensity_VV_db"), ("description", "Sigma0 VV"),
                ("description", "power in decibel"),
                ("description", "Sigma0_VH_dB")]
        bad_names = [self.tiff(f"bad{index}.tif", array, change=band_says(**{key: word})) for index, (key, word) in enumerate(bad)]
        bad_names += [netcdf(self.at("long.nc"), {"x": (array, {"long_name": "backscatter power"})}),
                      netcdf(self.at("unit.nc"), {"x": (array, {"units": "m2"})}),
                      netcdf(self.at("name.nc"), {"Intensity_VV": (array, {})})]
        good_names = [self.tiff(f"good{index}.tif", array, change=band_says(**{key: word})) for index, (key, word) in enumerate(good)]
        good_names += [netcdf(self.at("good.nc"), {"Intensity_VV_db": (array, {"units": "dB", "long_name": "intensity in decibel"})})]
        for name in bad_names:
            cases += [(74, [re.escape(os.path.basename(name)), "--as-decibels"], ("read", name))]
        cases += [(74, ["--as-decibels"], ("grey", bad_names[0], "--marks", "auto")), (74, ["--as-decibels"],
                                                                                       ("stats", bad_names[5], "--marks", "auto"))]
        two = self.tiff("two.tif", numpy.stack([array, array]), change=lambda file: file.GetRasterBand(2).SetDescription("Amplitude"))
        cases += [(74, ["--as-decibels"], ("read", two + ":2")), (74, ["--as-decibels"], ("picture", two, "--marks", "auto", "--mode", "rgb-ratio"))]
        self.all_refused(cases)
        self.same(self.read(two + ":1"), array)
        calls = [(name, "--as-decibels") for name in bad_names] + [(name,) for name in good_names]
        self.all_done([("read", *words, "--out", self.at(f"x{index}.npy")) for index, words in enumerate(calls)])
        for index, (name, *_) in enumerate(calls):
            self.same(numpy.load(self.at(f"x{index}.npy")), gdal_read(name), name)

    def test_palette(self):
        array = values("u1", 20, 30)
        tiff = self.tiff("p.tif", array, change=colour_table)
        image = Image.fromarray(array, "P")
        image.putpalette([index // 3 for index in range(768)])
        image.save(self.at("p.png"))
        image.save(self.at("p.gif"))
        for depth in (1, 4):
            png(self.at(f"p{depth}.png"), 30, 20, depth, zlib.compress(packed(array % 2**depth, depth)), [(b"PLTE", bytes(range(3 * 2**depth)))],
                colour=3)
        names = [tiff, self.at("p.png"), self.at("p.gif"), self.at("p4.png"), self.at("p1.png")]
        self.all_refused([(74, [re.escape(os.path.basename(name))], (command, name)) for name in names for command in ("read", "stretch", "pad")])

    def test_scaling(self):
        cases = [("i2", 0.01, -20.5), ("u1", 0.1, None), ("f4", None, 0.1), ("f4", 1 / 3, 1e-7), ("u2", -1.0, 0.0), ("i4", 1e-6, 3.0)]
        names, expected = [], []
        for index, (kind, scale, offset) in enumerate(cases):
            array = values(kind, 20, 30)
            names.append(self.tiff(f"s{index}.tif", array, change=band_says(scale=scale, offset=offset)))
            expected.append((array.astype("f8"), array.astype("f8") * (1.0 if scale is None else scale) + (0.0 if offset is None else offset)))
        packed_ = netcdf(self.at("s.nc"), {"vv": (values("i2", 20, 30), {"scale_factor": 0.001, "add_offset": -12.25})})
        names.append(packed_)
        expected.append((gdal_read(packed_), gdal_read(packed_) * 0.001 + -12.25))
        names.append(copied(self.at("beside.png"), values("u1", 20, 30), "PNG", change=band_says(scale=0.3, offset=-40.7)))
        expected.append((gdal_read(names[-1]), gdal_read(names[-1]) * 0.3 + -40.7))
        self.all_refused([(74, ["--scaling", re.escape(os.path.basename(name))], ("read", name)) for name in names] +
                         [(74, ["--scaling"], ("stats", names[0], "--marks", "auto")), (64, [], ("read", names[0], "--scaling", "none"))])
        for word in ("apply", "raw"):
            results = self.all_done([("read", name, "--scaling", word, "--out", self.at(f"{word}{index}.npy")) for index, name in enumerate(names)])
            for index, (raw, applied) in enumerate(expected):
                self.same(numpy.load(self.at(f"{word}{index}.npy")), applied if word == "apply" else raw, f"{names[index]} {word}")
                if word == "apply":
                    self.assertRegex(results[index].stderr, r"(?i)scal|offset")
        whole = self.tiff("whole.tif", values("f4", 20, 30))
        self.same(self.read(whole, "--scaling", "apply"), values("f4", 20, 30))

    def test_integers_that_f64_does_not_hold(self):
        cases = []
        for index, (kind, value) in enumerate((("i8", 2**53 + 1), ("i8", -2**53 - 1), ("i8", 2**63 - 1), ("u8", 2**64 - 1), ("u8", 2**63 + 1))):
            array = values(kind, 20, 30)
            array[11, 23] = value
            for name in (self.tiff(f"b{index}.tif", array), self.save(f"b{index}.npy", array),
                         self.save(f"big{index}.npy", array.astype(">" + kind))):
                cases.append((74, [re.escape(os.path.basename(name)), *place(11, 23)], ("read", name)))
            cases.append((74, place(11, 23), ("read", self.at(f"b{index}.tif"), "--crop", "5,20,10,10")))
        self.all_refused(cases)
        self.same(self.read(self.at("b4.tif"), "--crop", "0,0,11,30"), array[:11])

    def test_values(self):
        """Refusal 4 names the pixel in the file's own counting; marked invalid, the value does not matter."""
        marks, cases = numpy.ones((20, 30), "u1"), []
        for index, (value, text) in enumerate(((numpy.nan, "nan"), (numpy.inf, "inf"), (1000.5, r"1000\.5"), (-1000.25, r"1000\.25"))):
            bands = numpy.stack([decibels(20, 30), decibels(20, 30)])
            bands[1, 9, 14] = value
            name = self.tiff(f"v{index}.tif", bands) + ":2"
            patterns = [rf"v{index}\.tif", r"band\W{0,3}2|:2", *place(9, 14), text]
            cases += [(4, patterns, ("stats", name, self.save("m.npy", marks))), (4, patterns, ("grey", name, self.at("m.npy"))),
                      (4, patterns, ("window", name, self.at("m.npy"), "--crop", "7,11,5,9"))]
            gone = marks.copy()
            gone[9, 14] = 0
            self.done("stats", name, self.save(f"gone{index}.npy", gone))
        cases.append((4, place(9, 14), ("picture", self.at("v0.tif"), self.at("m.npy"), "--mode", "rgb-ratio")))
        self.all_refused(cases)

    def test_sides_of_windows(self):
        """Refusals 5 and 6."""
        name = self.tiff("small.tif", numpy.array([[0, 1]], "f4"))
        marks = self.save("m.npy", numpy.ones((1, 2), "u1"))
        steep = self.tiff("steep.tif", numpy.array([[[0, 1]], [[0, 14]]], "f4"))
        self.all_refused([(5, [r"\b[12]\b"], ("grey", name, marks, "--strategy", "clahe")),
                          (6, [r"steep\.tif", r"band\W{0,3}2|:2", "gamma"], ("grey", steep + ":2", marks, "--strategy", "standard", "--depth", "16"))])

    def test_one_band_is_wanted(self):
        array, marks = decibels(20, 30), marks_of(20, 30)
        two = self.tiff("two.tif", numpy.stack([array, array]))
        three = self.at("rgb.png")
        Image.fromarray(numpy.dstack([values("u1", 20, 30, seed) for seed in (1, 2, 3)])).save(three)
        mark = self.save("m.npy", marks)
        twice = self.tiff("twice.tif", numpy.stack([marks, marks]))
        cases = [(64, [r"two\.tif", r":[12]\b"], words) for words in (("read", two), ("stats", two, mark), ("stats", two, "--marks", "auto"),
                                                                      ("grey", two, mark),
                                                                       ("op", "sum", two, two), ("marks", two))]
        cases += [(64, [r"rgb\.png", r":[123]\b"], ("read", three)), (64, [r"twice\.tif", r":[12]\b"], ("stats", two + ":1", twice)),
                  ((64, 74), [r"rgb\.png"], ("stretch", three)), ((64, 74), [r"rgb\.png"], ("picture", three, mark, "--mode", "rgb-ratio")),
                  (64, [], ("stats", two + ":1"))]
        self.all_refused(cases)
        self.same(self.read(three + ":2"), values("u1", 20, 30, 2))

    def test_containers(self):
        array = decibels(20, 30)
        name = netcdf(self.at("pair.nc"), {"alpha_vv": (array, {}), "beta_vh": (array, {})})
        self.refused(74, ["alpha_vv", "beta_vh"], "read", name)
        self.refused(74, ["alpha_vv", "beta_vh"], "stats", name, "--marks", "auto")
        pages = self.at("pages.tif")
        Image.fromarray(array).save(pages, save_all=True, append_images=[Image.fromarray(decibels(20, 30, 2))])
        self.right_or_damaged([("pages", pages, array)])

    def test_lists(self):
        """Intensities are f32 or what an f32 holds, and no decibels; lists have 16,777,216 elements at most."""
        array = (numpy.random.default_rng(2).integers(0, 1000, (20, 30)) / 64).astype("f8")
        good = [self.tiff("f4.tif", values("f4", 20, 30)), self.tiff("f8.tif", array), self.save("f8.npy", array),
                self.tiff("u2.tif", values("u2", 20, 30)),
                self.tiff("i4.tif", values("i4", 20, 30, 1) >> 8), self.save("f2.npy", values("f2", 20, 30)),
                self.tiff("power.tif", values("f4", 20, 30), change=band_says(description="Intensity_VV"))]
        for name in good:
            same = numpy.load(name) if name.endswith(".npy") else gdal_read(name)
            self.done("marks", name, "--out", self.at("m.npy"))
            self.done("marks", self.save("same.npy", same.astype("f4")), "--out", self.at("same-m.npy"))
            self.assertTrue((numpy.load(self.at("m.npy")) == numpy.load(self.at("same-m.npy"))).all(), name)
        bent = array.copy()
        bent[3, 4] = 0.1
        whole = numpy.zeros((20, 30), "i4")
        whole[3, 4] = 2**24 + 1
        tiny = array.copy()
        tiny[3, 4] = 1e-300
        bad = [self.tiff("b8.tif", bent), self.save("b8.npy", bent), self.tiff("b4.tif", whole), self.save("b4.npy", whole),
               self.tiff("tiny.tif", tiny)]
        cases = [(74, [re.escape(os.path.basename(name)), *place(3, 4)], ("marks", name)) for name in bad]
        cases += [(74, ["db.tif"], ("marks", self.tiff("db.tif", decibels(20, 30), change=band_says(unit="dB")))),
                  (74, ["named.tif"], ("marks", self.tiff("named.tif", decibels(20, 30), change=band_says(description="Sigma0_VV_db")))),
                  (2, [], ("marks", sparse(self.at("l.tif"), (4097, 4096), tile=256))), (2, [],
                                                                                         ("marks",
                                                                                          sparse(self.at("w.tif"), (20000, 20000), 0.0, tile=256))),
                  (2, [], ("op", "sum", self.at("w.tif"), self.at("w.tif"))),
                  (2, [], ("stretch", sparse(self.at("g.tif"), (4097, 4096), 0.0, kind=gdal.GDT_Byte, tile=256))),
                  ((1, 2), [], ("pad", sparse(self.at("p.tif"), (10, 4097), 0.0, kind=gdal.GDT_Byte, tile=256))),
                  (2, shapes((20, 30), (30, 20)), ("op", "sum", self.tiff("a.tif", values("f4", 20, 30)), self.tiff("b.tif", values("f4", 30, 20))))]
        self.all_refused(cases)
        long = values("f4", 5, 5000)
        self.done("marks", self.tiff("long.tif", long), "--out", self.at("long.npy"))
        self.assertEqual(numpy.load(self.at("long.npy")).shape, (5, 5000))

    def test_greys(self):
        """Greys are bytes or 16-bit words; fewer bits are not greys of the full range."""
        cases = []
        for depth in (1, 2, 4):
            array = values("u1", 20, 30, depth, 2**depth)
            names = [self.tiff(f"g{depth}.tif", array, f"NBITS={depth}"), png(self.at(f"g{depth}.png"), 30, 20, depth,
                                                                              zlib.compress(packed(array, depth)))]
            cases += [(74, [rf"g{depth}\."], (command, name)) for name in names for command in ("stretch", "pad")]
        for kind in ("i2", "f4", "u4", "f8"):
            cases.append((74, [], ("stretch", self.tiff(f"{kind}.tif", values(kind, 20, 30)))))
        cases += [(74, [], ("stretch", self.save(f"{kind}.npy", values(kind, 20, 30)))) for kind in ("i1", "i2", "f4")]
        cases.append((74, [], ("stretch", self.tiff("signed.tif", values("i1", 20, 30), "PIXELTYPE=SIGNEDBYTE"))))
        self.all_refused(cases)
        for kind in ("u1", "u2"):
            array = values(kind, 20, 30)
            self.done("stretch", self.save("g.npy", array), "--out", self.at("expected.npy"))
            names = [self.tiff("g.tif", array, "COMPRESS=LZW"), copied(self.at("g.png"), array, "PNG"), self.tiff("g.img", array, driver="HFA"),
                     self.save("big.npy", numpy.asfortranarray(array.astype(">" + kind)))]
            for name in names:
                self.done("stretch", name, "--out", self.at("s.npy"))
                self.assertTrue((numpy.load(self.at("s.npy")) == numpy.load(self.at("expected.npy"))).all(), name)

    def test_animated(self):
        """An animated PNG has more than one picture."""
        array = values("u1", 20, 30)
        rows = zlib.compress(packed(array, 8))
        frame = lambda number: (b"fcTL", struct.pack(">IIIIIHHBB", number, 30, 20, 0, 0, 1, 10, 0, 0))
        two = png(self.at("two.png"), 30, 20, 8, rows, [(b"acTL", struct.pack(">II", 2, 0)), frame(0)],
                  [frame(1), (b"fdAT", struct.pack(">I", 2) + rows)])
        one = png(self.at("one.png"), 30, 20, 8, rows, [(b"acTL", struct.pack(">II", 1, 0)), frame(0)])
        bare = png(self.at("bare.png"), 30, 20, 8, rows, [(b"acTL", struct.pack(">II", 1, 0))])
        still = png(self.at("still.png"), 30, 20, 8, rows)
        self.all_refused([(74, [re.escape(os.path.basename(name))], (command, name)) for name in (two, one, bare) for command in ("read", "stretch")])
        self.same(self.read(still), array)

    def test_sides(self):
        marks = self.save("m.npy", numpy.ones((20, 30), "u1"))
        wide, high = self.tiff("wide.tif", values("f4", 3, 4097)), self.tiff("high.tif", values("f4", 4097, 3))
        cases = [(1, ["--crop", "4,?096|4,?097"], words) for name in (wide, high, self.save("wide.npy", values("f4", 3, 4097)))
                 for words in (("read", name), ("stats", name, "--marks", "auto"), ("window", name, "--marks", "auto"))]
        cases += [(1, ["--crop"], ("read", wide, "--crop", "0,0,3,4097"))]
        db, turned = self.tiff("db.tif", decibels(20, 30)), self.save("t.npy", numpy.ones((30, 20), "u1"))
        cases += [(2, shapes((20, 30), (30, 20)), words) for words in (("stats", db, turned), ("read", db, turned), ("grey", db, turned),
                  ("stats", db, turned, "--crop", "0,0,5,5"), ("picture", db, marks, self.save("u.npy", decibels(30, 20)), turned, "--mode",
                                                               "rgb-ratio"))]
        cases += [(2, shapes((20, 30), (21, 30)), ("stats", db, self.tiff("m21.tif", numpy.ones((21, 30), "u1"))))]
        for text in ("0,0,21,30", "0,0,20,31", "20,0,1,1", "0,30,1,1", "19,29,2,1", "-1,0,5,5", "0,0,5", "0,0,5,5,5", "a,0,5,5", "",
                     "18446744073709551615,0,2,2",
                     "0,4294967295,1,2", "0,0,18446744073709551615,1", "0.5,0,5,5"):
            cases.append((64, [], ("read", db, f"--crop={text}" if text.startswith("-") else "--crop", *([] if text.startswith("-") else [text]))))
        cases.append(((2, 64), [], ("read", self.at("db.tif"), "--crop", "0,0,0,5")))
        self.all_refused(cases)
        self.same(self.read(wide, "--crop", "1,1,2,4096"), values("f4", 3, 4097)[1:, 1:])

    def test_a_large_scene(self):
        """Of 20,000 rows and columns, most of them not in the file, a part is read; the whole is refused at once."""
        part = values("f4", 300, 200)
        name = sparse(self.at("large.tif"), (20000, 20000), -9999.0, part, (10000, 12345), tile=256)
        vrt = self.at("large.vrt")
        gdal.GetDriverByName("VRT").CreateCopy(vrt, gdal.Open(name))
        marks = sparse(self.at("marks.tif"), (20000, 20000), 0, numpy.ones((100, 100), "u1"), (10000, 12345), gdal.GDT_Byte, 256)
        self.all_refused([(1, ["--crop", "20,?000"], ("read", one)) for one in (name, vrt)] + [(1, ["--crop"], ("stats", name, marks))])
        for one in (name, vrt):
            for row, col, rows, cols in ((9990, 12340, 400, 300), (10010, 12400, 40, 50), (19999, 19999, 1, 1), (0, 0, 64, 64)):
                file = gdal.Open(one)
                expected = file.GetRasterBand(1).ReadAsArray(col, row, cols, rows).astype("f8")
                file = None
                self.same(self.read(one, "--crop", f"{row},{col},{rows},{cols}"), expected, (one, row, col))
        self.done("read", name, marks, "--crop", "9990,12340,80,90", "--out", self.at("x.npy"), "--marks-out", self.at("m.npy"))
        expected = numpy.zeros((80, 90), "u1")
        expected[10:, 5:] = 1
        self.assertTrue((numpy.load(self.at("m.npy")) == expected).all())


class Damaged(Case):
    """A file that is not whole gives 74, or exactly the right pixels, never others."""

    def test_sparse(self):
        name = sparse(self.at("s.tif"), part=decibels(40, 50), at=(30, 37))
        nothing = sparse(self.at("n.tif"))
        self.all_refused([(74, [r"s\.tif"], ("read", name)), (74, [r"s\.tif"], ("stats", name, "--marks", "auto")),
                          (74, [r"n\.tif"], ("read", nothing)),
                          (74, [r"s\.tif"], ("read", name, "--crop", "20,30,40,40")), (74, [r"s\.tif"], ("marks", name)),
                          (74, [r"m\.tif"], ("stats", self.tiff("db.tif", decibels(130, 110)),
                                             sparse(self.at("m.tif"), part=numpy.ones((40, 50), "u1"), kind=gdal.GDT_Byte)))])
        result = self.run_program("read", name, "--crop", "32,40,20,20", "--out", self.at("x.npy"))
        if result.returncode == 0:
            self.same(numpy.load(self.at("x.npy")), decibels(40, 50)[2:22, 3:23])
        else:
            self.judge(result, 74, [], "a part that is in the file")

    def test_big_endian_predictor(self):
        """libtiff writes big-endian files with predictor 3 otherwise than it reads them: what was written, or 74, but not what it then reads."""
        array, cases = values("f4", 50, 70), []
        for kind in ("f4", "f8"):
            name = self.tiff(f"{kind}.tif", values(kind, 50, 70), "ENDIANNESS=BIG", "COMPRESS=LZW", "PREDICTOR=3")
            cases.append((kind, name, values(kind, 50, 70)))
        cases.append(("by hand", float_predicted(self.at("hand.tif"), array, ">"), array))
        self.right_or_damaged(cases)
        self.same(self.read(float_predicted(self.at("little.tif"), array, "<")), array)

    def test_through_a_vrt(self):
        """A VRT over a TIFF that is not whole is not whole either."""
        array = values("f4", 130, 110)
        holes = sparse(self.at("s.tif"), part=decibels(40, 50), at=(30, 37))
        name = self.tiff("d.tif", array, "COMPRESS=DEFLATE", "TILED=YES", "BLOCKXSIZE=64", "BLOCKYSIZE=64")
        file = gdal.Open(name)
        start, size = (int(file.GetRasterBand(1).GetMetadataItem(f"BLOCK_{word}_1_1", "TIFF")) for word in ("OFFSET", "SIZE"))
        file = None
        for one in (holes, name):
            gdal.GetDriverByName("VRT").CreateCopy(one[:-4] + ".vrt", gdal.Open(one))
        self.same(self.read(self.at("d.vrt")), array)
        self.refused(74, [], "read", self.at("s.vrt"))
        whole = pathlib.Path(name).read_bytes()
        for place_ in (size - 1, size // 2, size // 3, 30):
            bent = bytearray(whole)
            bent[start + place_] ^= 4
            pathlib.Path(name).write_bytes(bent)
            self.refused(74, [], "read", self.at("d.vrt"))
        pathlib.Path(name).write_bytes(whole[: start + size // 2])
        self.refused(74, [], "read", self.at("d.vrt"))

    def test_directories(self):
        """Directories that GDAL repairs with a warning, or that lack what they need."""
        array = values("f4", 40, 40)
        tags, data = strips(array, 1, 20)
        self.same(self.read(raw_tiff(self.at("whole.tif"), tags, data)), array)
        offsets, counts = tags[273][1], tags[279][1]
        bad = [{273: (4, offsets[:1])}, {279: (4, counts[:1])}, {273: (4, offsets[:1]), 279: (4, counts[:1])}, {279: None}, {273: None}, {258: None},
               {256: None},
               {258: (2, [32])}, {278: (11, [20.0])}, {339: (2, [3])}, {279: (4, [0, 0])}, {279: (4, [counts[0], 0])}, {273: (4, [8, 0])},
               {273: (4, [8, 10**6])},
               {259: (3, [9999])}, {277: (3, [2])}, {258: (3, [33])}, {257: (4, [0])}, {257: (4, [80])}, {257: (4, [60])}]
        cases = []
        for index, change in enumerate(bad):
            name = raw_tiff(self.at(f"bad{index}.tif"), {tag: entry for tag, entry in {**tags, **change}.items() if entry}, data)
            cases.append(((64, 74) if 277 in change else 74, [], ("read", name)))
        packed_tags, packed_data = strips(array, 8, 20)
        one = raw_tiff(self.at("one.tif"), {**packed_tags, 273: (4, packed_tags[273][1][:1]), 279: (4, packed_tags[279][1][:1])}, packed_data)
        cases.append((74, [r"one\.tif"], ("read", one)))
        self.all_refused(cases)
        perhaps = [{278: None}, {279: (4, [3200, 100])}, {279: (4, [3200, 6400])}, {273: (4, offsets + [8])}, {279: (4, counts + [8])},
                   {258: (3, [32, 32])}]
        names = [raw_tiff(self.at(f"perhaps{index}.tif"), {tag: entry for tag, entry in {**tags, **change}.items() if entry}, data)
                 for index, change in enumerate(perhaps)]
        self.right_or_damaged([(os.path.basename(name), name, array) for name in names])

    def test_edited_counts(self):
        """A TIFF of GDAL with two strips, edited to list one."""
        for packing in ("NONE", "DEFLATE"):
            whole = bytearray(pathlib.Path(self.tiff("a.tif", values("f4", 40, 40), "BLOCKYSIZE=20", f"COMPRESS={packing}")).read_bytes())
            start = struct.unpack_from("<I", whole, 4)[0]
            for index in range(struct.unpack_from("<H", whole, start)[0]):
                at = start + 2 + 12 * index
                tag, kind, count, where = struct.unpack_from("<HHII", whole, at)
                if tag in (273, 279):
                    size, letter = (4, "I") if kind == 4 else (2, "H")
                    self.assertEqual(count, 2)
                    first = struct.unpack_from("<" + letter, whole, where if 2 * size > 4 else at + 8)[0]
                    struct.pack_into("<II", whole, at + 4, 1, first)
            pathlib.Path(self.at("one.tif")).write_bytes(whole)
            self.refused(74, [r"one\.tif"], "read", self.at("one.tif"))

    def test_deflated_blocks(self):
        """The checksum and the length of a deflated block."""
        array = values("f4", 40, 40)
        tags, data = strips(array, 8)
        raw, last = array.tobytes(), len(data) - 1
        bad = {"adler": data[:last] + bytes([data[last] ^ 1]), "no adler": data[:-4], "half an adler": data[:-2], "short": zlib.compress(raw[:-4]),
               "one short": zlib.compress(raw[:-1]), "empty": zlib.compress(b""), "long": zlib.compress(raw + bytes(4)),
               "very long": zlib.compress(raw * 20),
               "cut": data[: len(data) // 2], "not zlib": bytes(100), "raw deflate": data[2:]}
        cases = []
        for label, body in bad.items():
            name = raw_tiff(self.at(f"{label}.tif"), {**tags, 279: (4, [len(body)])}, body)
            cases.append((74, [re.escape(label)], ("read", name)))
        self.all_refused(cases)

    def test_truncated(self):
        """Files of many kinds cut off at many places."""
        array = values("f4", 40, 50)
        files = [self.tiff("a.tif", array), self.tiff("deflate.tif", array, "COMPRESS=DEFLATE", "BLOCKYSIZE=10"),
                 self.tiff("lzw.tif", array, "COMPRESS=LZW"),
                 self.tiff("tiles.tif", array, "TILED=YES", "BLOCKXSIZE=16", "BLOCKYSIZE=16", "COMPRESS=ZSTD"),
                 self.tiff("lerc.tif", array, "COMPRESS=LERC"),
                 self.tiff("packbits.tif", array.astype("i2"), "COMPRESS=PACKBITS"), self.tiff("lzma.tif", array, "COMPRESS=LZMA"),
                 self.tiff("big.tif", array, "BIGTIFF=YES"),
                 self.tiff("e.dat", array, driver="ENVI"), self.tiff("b.bil", array, driver="EHdr"), self.tiff("h.img", array, driver="HFA"),
                 netcdf(self.at("n.nc"), {"vv": (array, {})}), netcdf(self.at("n3.nc"), {"vv": (array, {})}, "NETCDF3_CLASSIC"),
                 copied(self.at("g.png"), values("u1", 40, 50), "PNG"), copied(self.at("g16.png"), values("u2", 40, 50), "PNG"),
                 copied(self.at("j.jp2"), values("u1", 40, 50), "JP2OpenJPEG", "QUALITY=100", "REVERSIBLE=YES"),
                 copied(self.at("t.asc"), values("i4", 40, 50), "AAIGrid"), self.tiff("p.pgm", values("u1", 40, 50), driver="PNM")]
        files += [self.tiff("f" + ending, array, driver=driver) for driver, ending in (("SAGA", ".sdat"), ("ISCE", ".rdr"), ("NITF", ".ntf"),
                                                                                       ("KRO", ".kro"),
                                                                                       ("PCIDSK", ".pix"))]
        files.append(self.save("x.npy", array))
        cases, strict = [], []
        for name in files:
            whole = pathlib.Path(name).read_bytes()
            expected = numpy.load(name) if name.endswith(".npy") else gdal_read(name)
            for part in (1, 0.9, 0.5):
                length = len(whole) - 1 if part == 1 else int(len(whole) * part)
                folder = self.at(f"{os.path.basename(name)}-{part}")
                os.mkdir(folder)
                cut = os.path.join(folder, os.path.basename(name))
                pathlib.Path(cut).write_bytes(whole[:length])
                stem = os.path.splitext(os.path.basename(name))[0]
                for side in (stem + ".hdr", stem + ".prj", stem + ".stx", stem + ".sgrd", os.path.basename(name) + ".xml",
                             os.path.basename(name) + ".aux.xml"):
                    if os.path.exists(self.at(side)):
                        shutil.copy(self.at(side), folder)
                cases.append((f"{os.path.basename(name)} cut to {length} of {len(whole)} bytes", cut, expected))
                if part == 0.5:
                    strict.append(len(cases) - 1)
        for name in files:
            self.same_as_gdal(name) if not name.endswith(".npy") else self.same(self.read(name), array)
        self.right_or_damaged(cases)
        self.assertFalse([cases[index][0] for index in strict if os.path.exists(self.at(f"maybe{index}.npy"))], "half a file was read as a whole one")

    def test_numpy_headers(self):
        array = values("f8", 20, 30)
        data = array.tobytes()
        self.same(self.read(npy_header(self.at("whole.npy"), "(20, 30)", data=data)), array)
        cases = [(74, [], ("read", npy_header(self.at(f"n{index}.npy"), shape, kind, data)))
                 for index, (shape, kind) in enumerate((("(600,)", "<f8"), ("(20, 30, 1)", "<f8"), ("()", "<f8"), ("(20, 31)", "<f8"),
                                                        ("(-20, -30)", "<f8"),
                                                        ("(20, 30)", "<c16"), ("(20, 30)", "|O"), ("(20, 30)", "<U2"), ("(20, 30)", "<M8[s]"),
                                                        ("(20, 30)", "<f16"),
                                                        ("(20, 30)", "|V8"), ("[20, 30]", "<f8"), ("(20.0, 30)", "<f8")))]
        cases.append((74, [], ("read", self.save("three.npy", values("f4", 20, 30)[None]))))
        bools = npy_header(self.at("bools.npy"), "(20, 30)", "|b1", bytes([0, 1, 2, 255] * 150))
        result = self.run_program("read", bools, "--out", self.at("x.npy"))
        self.assertTrue(result.returncode == 74 or (result.returncode == 0 and set(numpy.unique(numpy.load(self.at("x.npy")))) <= {0, 1}),
                        "truth values of 2 and 255")
        shutil.copy(self.tiff("t.tif", values("f4", 20, 30)), self.at("t.npy"))
        cases.append((74, [r"t\.npy"], ("read", self.at("t.npy"))))
        self.all_refused(cases)


def blocks(name, domain=None):
    """Where the blocks of a TIFF's band stand: pairs of offset and size."""
    file = gdal.Open(domain or name)
    band = file.GetRasterBand(1)
    across, down = ((side + block - 1) // block for side, block in zip((band.XSize, band.YSize), band.GetBlockSize()))
    return [tuple(int(band.GetMetadataItem(f"BLOCK_{word}_{x}_{y}", "TIFF")) for word in ("OFFSET",
                                                                                          "SIZE")) for y in range(down) for x in range(across)]


class Flips(Case):
    """A file with one bit of its data turned: never status 0 with other values."""

    def flipped(self, name, spans, count, seed=12):
        """So many copies of a file, each with one bit turned within the spans."""
        whole, ending = pathlib.Path(name).read_bytes(), os.path.splitext(name)[1]
        places = numpy.concatenate([numpy.arange(start * 8, (start + size) * 8) for start, size in spans])
        for place_ in numpy.random.default_rng(seed).choice(places, count, replace=False):
            bent = bytearray(whole)
            bent[place_ // 8] ^= 1 << place_ % 8
            path = self.at(f"{os.path.basename(name)}-{place_}{ending}")
            pathlib.Path(path).write_bytes(bent)
            yield f"{os.path.basename(name)}, bit {place_ % 8} of byte {place_ // 8}", path

    def test_deflated(self):
        array = numpy.round(decibels(40, 40) * 4) / 4
        name = self.tiff("whole.tif", array, "COMPRESS=DEFLATE")
        (start, size), = blocks(name)
        self.assertEqual(zlib.decompress(pathlib.Path(name).read_bytes()[start:start + size]), array.tobytes())
        self.same(self.read(name), array)
        refusals = self.right_or_damaged([(label, path, array) for label, path in self.flipped(name, [(start, size)], 300)])
        self.assertGreater(refusals, 250)

    def test_tiles_and_pictures(self):
        array = values("f4", 70, 80)
        name = self.tiff("tiles.tif", array, "COMPRESS=DEFLATE", "PREDICTOR=3", "TILED=YES", "BLOCKXSIZE=32", "BLOCKYSIZE=32")
        cases = [(label, path, array) for label, path in self.flipped(name, blocks(name), 24)]
        grey = values("u1", 40, 50)
        name = copied(self.at("g.png"), grey, "PNG")
        cases += [(label, path, grey) for label, path in self.flipped(name, [(8, os.path.getsize(name) - 8)], 32)]
        self.same(self.read(name), grey)
        self.same(self.read(self.at("tiles.tif")), array)
        self.assertGreater(self.right_or_damaged(cases), 24)

    def test_marks(self):
        """The same for a file of marks and for the mask of a raster."""
        marks, db = marks_of(40, 50), self.tiff("db.tif", decibels(40, 50))
        file = self.tiff("marks.tif", marks, "COMPRESS=DEFLATE")
        inside = self.tiff("inside.tif", decibels(40, 50), "COMPRESS=DEFLATE", change=with_mask)
        beside = self.tiff("beside.tif", decibels(40, 50), "COMPRESS=DEFLATE", change=lambda open_: with_mask(open_, False))
        cases = [((db, path), label, marks) for label, path in self.flipped(file, blocks(file), 16)]
        expected = gdal_marks(inside)
        cases += [((path, "--marks", "auto"), label, expected) for label, path in self.flipped(inside, blocks(inside, f"GTIFF_DIR:2:{inside}"), 24)]
        for label, path in self.flipped(beside + ".msk", blocks(beside + ".msk"), 24):
            shutil.copy(beside, path[:-4] + ".tif")
            os.rename(path, path[:-4] + ".tif.msk")
            cases.append(((path[:-4] + ".tif", "--marks", "auto"), label, gdal_marks(beside)))
        calls = [("read", *words, "--out", self.at(f"x{index}.npy"), "--marks-out", self.at(f"m{index}.npy")) for index,
                 (words, _, _) in enumerate(cases)]
        for words in ((db, file), (inside, "--marks", "auto"), (beside, "--marks", "auto")):
            self.done("read", *words, "--out", self.at("x.npy"), "--marks-out", self.at("m.npy"))
        wrong = []
        for index, ((_, label, expected), result) in enumerate(zip(cases, self.together(calls))):
            if result.returncode == 0:
                if (numpy.load(self.at(f"m{index}.npy")) != expected).any():
                    wrong.append(f"{label}: status 0 with other marks")
            elif result.returncode not in (3, 74) or "panicked" in result.stderr:
                wrong.append(f"{label}: status {result.returncode}, {result.stderr!r}")
        self.none(wrong, len(cases))
