"""Georeferences, outputs and where they came from."""
import hashlib
import os
import pathlib

import numpy
from osgeo import gdal
from PIL import Image

from rasters.files import Case, crs, decibels, marks_of


def placed(kind):
    """Puts a raster on the earth, in one of five ways."""
    def change(file):
        if kind == "utm":
            file.SetGeoTransform((500000.25, 10.0, 0.0, 5200000.5, 0.0, -12.5))
            file.SetSpatialRef(crs(32632))
        elif kind == "geographic":
            file.SetGeoTransform((10.1, 0.0003, 0.0, 54.7, 0.0, -0.00017))
            file.SetSpatialRef(crs(4326))
        elif kind == "rotated":
            file.SetGeoTransform((500000.0, 8.0, 2.5, 5200000.0, -1.25, -9.5))
            file.SetSpatialRef(crs(32632))
        elif kind == "point":
            file.SetMetadataItem("AREA_OR_POINT", "Point")
            file.SetGeoTransform((500000.0, 10.0, 0.0, 5200000.0, 0.0, -10.0))
            file.SetSpatialRef(crs(32632))
        elif kind == "gcps":
            points = [(10.0, 54.0, 0.0, 0.0, 0.0), (10.5, 54.01, 5.0, 59.5, 0.5), (10.02, 53.6, 7.0, 1.0, 39.0), (10.52, 53.61, 0.0, 60.0, 40.0)]
            file.SetGCPs([gdal.GCP(x, y, z, pixel, line) for x, y, z, pixel, line in points], crs(4326).ExportToWkt())
    return change


def location(name):
    """Geotransform or nothing, reference, control points (with their reference), AREA_OR_POINT."""
    file = gdal.Open(name)
    points = [(point.GCPPixel, point.GCPLine, point.GCPX, point.GCPY, point.GCPZ) for point in file.GetGCPs()]
    reference = file.GetGCPSpatialRef() if points else file.GetSpatialRef()
    return file.GetGeoTransform(can_return_null=True), reference.Clone() if reference else None, points, file.GetMetadataItem("AREA_OR_POINT")


def moved(where, row, col):
    """The same location of a part that starts at a row and a column."""
    place_, reference, points, kind = where
    if place_:
        g0, g1, g2, g3, g4, g5 = place_
        place_ = (g0 + col * g1 + row * g2, g1, g2, g3 + col * g4 + row * g5, g4, g5)
    return place_, reference, [(pixel - col, line - row, *rest) for pixel, line, *rest in points], kind


class Located(Case):
    """Outputs stand where their inputs stood, and hold the same values as .npy outputs."""
    ROWS, COLS = 40, 60

    def located(self, found, expected, label):
        for name, one, two in zip(("geotransform", "control points", "AREA_OR_POINT"), (found[0], found[2], found[3]),
                                  (expected[0], expected[2], expected[3])):
            if name != "AREA_OR_POINT" or two == "Point":
                self.assertEqual(one, two, (label, name))
        self.assertEqual(found[1] is None, expected[1] is None, (label, "reference"))
        if expected[1] is not None:
            self.assertTrue(found[1].IsSame(expected[1]), (label, found[1].ExportToWkt()))

    def inputs(self, kind):
        """A two-band scene, its marks, intensities and greys, all at the same place."""
        change, sides = placed(kind), (self.ROWS, self.COLS)
        greys = numpy.random.default_rng(3).integers(1, 256, (2, *sides)).astype("u1")
        names = {"scene": self.tiff(f"{kind}-scene.tif", numpy.stack([decibels(*sides, 1), decibels(*sides, 2)]), "TILED=YES", change=change),
                 "marks": self.save(f"{kind}-marks.npy", marks_of(*sides)), "greys": self.tiff(f"{kind}-greys.tif", greys, change=change),
                 "marks2": self.save(f"{kind}-marks2.npy", marks_of(*sides, 2))}
        return names

    def commands(self, names):
        scene, greys, marks, marks2 = names["scene"], names["greys"], names["marks"], names["marks2"]
        return {"grey": ("grey", f"{scene}:1", marks, "--strategy", "robust", "--depth", "8"),
                "grey16": ("grey", f"{scene}:2", marks2, "--depth", "16"),
                "picture": ("picture", f"{scene}:1", marks, f"{scene}:2", marks2, "--strategy", "robust", "--mode", "rgb-ratio"),
                "marks": ("marks", f"{scene}:1"), "op": ("op", "sum", f"{scene}:1", f"{scene}:2"), "stretch": ("stretch", f"{greys}:2"),
                "compose": ("compose", f"{greys}:1", f"{greys}:2", "--mode", "rgb-ratio"), "pad": ("pad", f"{greys}:1")}

    def check(self, kind, chosen, crops, cogs):
        """Runs commands to .npy, .tif and COG and compares them."""
        names = self.inputs(kind)
        jobs, calls = [], []
        for command, words in self.commands(names).items():
            for crop in crops if command in chosen else ():
                for cog in cogs:
                    jobs.append((command, words, crop, cog, len(jobs)))
        for command, words, crop, cog, index in jobs:
            part = ("--crop", ",".join(map(str, crop))) if crop else ()
            calls.append((*words, *part, "--out", self.at(f"{kind}{index}.npy")))
            calls.append((*words, *part, *(["--cog"] if cog else []), "--out", self.at(f"{kind}{index}.tif")))
        self.all_done(calls)
        for command, words, crop, cog, index in jobs:
            row, col, rows, cols = crop or (0, 0, self.ROWS, self.COLS)
            label, array = (kind, command, crop, cog), numpy.load(self.at(f"{kind}{index}.npy"))
            file = gdal.Open(self.at(f"{kind}{index}.tif"))
            found = file.ReadAsArray()
            found = numpy.moveaxis(found, 0, 2) if array.ndim == 3 else found
            self.assertEqual((found.dtype, found.shape), (array.dtype, array.shape), label)
            self.assertTrue((found.view("u4") == array.view("u4")).all() if found.dtype == "f4" else (found == array).all(), label)
            self.assertEqual(file.GetMetadataItem("COMPRESSION", "IMAGE_STRUCTURE"), "DEFLATE", label)
            self.assertRegex(file.GetMetadataItem("TIFFTAG_SOFTWARE") or "", r"^quicklook \S+ \(.+\)$", label)
            if cog:
                self.assertEqual(file.GetMetadataItem("LAYOUT", "IMAGE_STRUCTURE"), "COG", label)
            else:
                self.assertEqual(file.GetRasterBand(1).GetBlockSize(), [256, 256], label)
            if command in ("grey", "grey16", "picture"):
                marks, marks2 = (marks_of(self.ROWS, self.COLS, seed)[row:row + rows, col:col + cols] for seed in (1, 2))
                marks = {"grey": marks, "grey16": marks2, "picture": marks & marks2}[command]
                for band in range(1, file.RasterCount + 1):
                    self.assertTrue(file.GetRasterBand(band).GetMaskFlags() & gdal.GMF_PER_DATASET, label)
                    self.assertFalse(file.GetRasterBand(band).GetMaskFlags() & (gdal.GMF_NODATA | gdal.GMF_ALPHA), label)
                    self.assertTrue((file.GetRasterBand(band).GetMaskBand().ReadAsArray() == marks * 255).all(), label)
                self.assertFalse(os.path.exists(self.at(f"{kind}{index}.tif.msk")), label)
            file = None
            if command == "pad":
                greys = gdal.Open(names["greys"]).ReadAsArray()[0][row:row + rows, col:col + cols]
                filled = numpy.argwhere(array)
                top, left = filled.min(axis=0)
                self.assertTrue((array[top:top + rows, left:left + cols] == greys).all(), label)
                row, col = row - int(top), col - int(left)
            expected = moved(location(names["greys"] if command in ("stretch", "compose", "pad") else names["scene"]), row, col)
            self.located(location(self.at(f"{kind}{index}.tif")), expected, label)

    def test_utm(self):
        crop = (5, 13, 21, 34)
        self.check("utm", ("grey", "grey16", "picture", "marks", "op", "stretch", "compose", "pad"), (None, crop), (False,))
        self.check("utm", ("grey", "picture", "marks", "op", "pad"), (crop,), (True,))

    def test_others(self):
        for kind, cogs in (("geographic", (False, True)), ("rotated", (False,)), ("point", (False,)), ("gcps", (False,))):
            self.check(kind, ("grey", "pad", "op"), ((7, 11, 30, 40),), cogs)
        self.check("gcps", ("picture",), (None,), (False,))

    def test_nowhere(self):
        """A .npy stands nowhere, and so does what is made of it."""
        self.save("db.npy", decibels(40, 60))
        self.done("grey", self.at("db.npy"), self.save("m.npy", marks_of(40, 60)), "--out", self.at("g.tif"))
        where = location(self.at("g.tif"))
        self.assertEqual((where[0], where[1], where[2]), (None, None, []))
        file = gdal.Open(self.at("g.tif"))
        self.assertTrue((file.GetRasterBand(1).GetMaskBand().ReadAsArray() == marks_of(40, 60) * 255).all())
        file = None
        self.refused(74, [], "grey", self.at("db.npy"), self.at("m.npy"), "--world", out="w.png")

    def test_the_first_raster_counts(self):
        """The place is that of the first raster, not of another."""
        one, two = self.tiff("one.tif", decibels(40, 60), change=placed("utm")), self.tiff("two.tif", decibels(40, 60, 2),
                                                                                           change=placed("geographic"))
        self.done("op", "diff", one, two, "--out", self.at("d.tif"))
        self.located(location(self.at("d.tif")), location(one), "first")

    def test_world(self):
        """The world file and the file of GDAL beside a PNG."""
        for kind, crop in (("utm", (0, 0, 40, 60)), ("utm", (5, 13, 21, 34)), ("rotated", (5, 13, 21, 34)), ("geographic", (1, 2, 30, 40)),
                           ("gcps", (5, 13, 21, 34))):
            names, stem = self.inputs(kind), f"{kind}{crop[0]}"
            words = self.commands(names)["picture" if kind == "rotated" else "grey"]
            self.done(*words, "--crop", ",".join(map(str, crop)), "--world", "--out", self.at(stem + ".png"))
            expected = moved(location(names["scene"]), *crop[:2])
            self.assertTrue(os.path.exists(self.at(stem + ".png.aux.xml")), kind)
            self.assertEqual(os.path.exists(self.at(stem + ".pgw")), kind != "gcps", kind)
            found = location(self.at(stem + ".png"))
            self.assertTrue(found[1] is not None and found[1].IsSame(expected[1]), (kind, "reference"))
            self.assertEqual(found[2], expected[2], kind)
            if kind != "gcps":
                g0, g1, g2, g3, g4, g5 = expected[0]
                numbers = [float(word) for word in pathlib.Path(self.at(stem + ".pgw")).read_text().split()]
                self.assertEqual(len(numbers), 6)
                wanted = [g1, g4, g2, g5, g0 + g1 / 2 + g2 / 2, g3 + g4 / 2 + g5 / 2]
                for one, two in zip([*numbers, *found[0]], [*wanted, *expected[0]]):
                    self.assertLessEqual(abs(one - two), 1e-9 if abs(two) > 1000 else 1e-10, (kind, numbers, found[0], expected[0]))
        self.done(*self.commands(names)["grey"], "--out", self.at("plain.png"))
        self.assertFalse(os.path.exists(self.at("plain.pgw")) or os.path.exists(self.at("plain.png.aux.xml")))

    def test_words(self):
        """Software, strategy, windows and inputs stand in the picture."""
        names = self.inputs("utm")
        scene, marks, marks2 = names["scene"], names["marks"], names["marks2"]
        digest = {name: hashlib.sha256(pathlib.Path(name).read_bytes()).hexdigest() for name in names.values()}
        windows = []
        for band, mark in ((1, marks), (2, marks2)):
            words = self.done("window", f"{scene}:{band}", mark, "--strategy", "robust").stdout.split()
            windows.append([float(word) for word in words[1::2]])
        none = self.save("none.npy", numpy.zeros((self.ROWS, self.COLS), "u1"))
        calls = {"grey": (("grey", f"{scene}:1", marks, "--strategy", "robust"), windows[:1], [scene, marks]),
                 "picture": (("picture", f"{scene}:1", marks, f"{scene}:2", marks2, "--strategy", "robust", "--mode", "rgb-ratio"), windows,
                             [scene, marks, scene, marks2]),
                 "blank": (("grey", f"{scene}:1", none, "--strategy", "robust"), ["blank"], [scene])}
        for label, (words, expected, files) in calls.items():
            for ending in ("png", "tif"):
                self.done(*words, "--out", self.at(f"{label}.{ending}"))
                if ending == "png":
                    with Image.open(self.at(f"{label}.png")) as image:
                        image.load()
                        found = {key: str(text) for key, text in image.text.items()}
                    software = found["Software"]
                else:
                    file = gdal.Open(self.at(f"{label}.tif"))
                    found, file = file.GetMetadata(), None
                    software = found["TIFFTAG_SOFTWARE"]
                self.assertRegex(software, r"^quicklook \S+ \(.+\)$")
                self.assertEqual(found["quicklook_strategy"], "robust")
                for index, window in enumerate(expected, 1):
                    text = found[f"quicklook_window{index}"]
                    self.assertEqual(text if window == "blank" else [float(word) for word in text.split()], window, (label, ending))
                self.assertEqual(f"quicklook_window{len(expected) + 1}" in found, False, (label, ending))
                self.check_inputs([found[key] for key in sorted(found) if key.startswith("quicklook_input")], files, digest, (label, ending))

    def check_inputs(self, texts, files, digest, label):
        """Each input is named with its checksum; the first is the first raster; every raster of the call is there."""
        pairs = []
        for text in texts:
            self.assertRegex(text, r"^.+ sha256 [0-9a-f]{64}$", label)
            pairs.append(tuple(text.rsplit(" sha256 ", 1)))
        self.assertTrue(pairs, label)
        self.assertEqual(pairs[0][1], digest[files[0]], label)
        for name in files:
            self.assertTrue([one for one, sum_ in pairs if os.path.basename(name) in one and sum_ == digest[name]], (label, name, texts))

    def test_no_extra_files(self):
        """An output is one file."""
        names = self.inputs("utm")
        before = set(os.listdir(self.folder.name))
        self.all_done([(*words, *more, "--out", self.at(f"o{index}.{ending}")) for index, (words, ending, more) in enumerate(
            (words, ending, more) for words in (self.commands(names)["grey"], self.commands(names)["picture"])
            for ending, more in (("tif", ()), ("tif", ("--cog",)), ("png", ())))])
        self.assertEqual(sorted(set(os.listdir(self.folder.name)) - before), sorted(f"o{index}.{ending}" for index,
                                                                                    ending in enumerate(["tif", "tif", "png"] * 2)))

    def test_a_large_grey(self):
        """More tiles than one; pixels and mask of a COG with overviews."""
        db, marks = self.tiff("db.tif", decibels(600, 530), "TILED=YES", change=placed("utm")), self.save("m.npy", marks_of(600, 530))
        calls = [("grey", db, marks, "--strategy", "robust", "--out", self.at("g.npy")), ("grey", db, marks, "--strategy", "robust", "--out",
                                                                                          self.at("g.tif")),
                 ("grey", db, marks, "--strategy", "robust", "--cog", "--out", self.at("c.tif"))]
        self.all_done(calls)
        for name in ("g.tif", "c.tif"):
            file = gdal.Open(self.at(name))
            self.assertTrue((file.ReadAsArray() == numpy.load(self.at("g.npy"))).all(), name)
            self.assertTrue((file.GetRasterBand(1).GetMaskBand().ReadAsArray() == marks_of(600, 530) * 255).all(), name)
            file = None
            self.located(location(self.at(name)), location(db), name)
