"""Marks: from files, and by what a raster itself says."""
import os
import pathlib
import re

import numpy
from osgeo import gdal
from PIL import Image

from rasters.files import Case, copied, decibels, differences, gdal_marks, gdal_read, marks_of, netcdf, place, raster, values
from rasters.variants import with_holes, with_mask


def with_alpha(path, kind="u1", driver="GTiff"):
    """A band and an alpha band with nothing, parts and everything in it."""
    top = {"u1": 255, "u2": 65535, "f4": 255}[kind]
    alpha = numpy.random.default_rng(8).choice(numpy.array([0, 1, 2, 100, 128, 200, 256 if kind == "u2" else 254, top], kind), (40, 50))
    return raster(path, numpy.stack([values(kind, 40, 50), alpha]), "ALPHA=YES", "PHOTOMETRIC=MINISBLACK", driver=driver)


def mixed_alpha(path, folder):
    """A VRT of f4 decibels with alpha bytes."""
    data, alpha = os.path.join(folder, "mixed-data.tif"), os.path.join(folder, "mixed-alpha.tif")
    raster(data, decibels(40, 50))
    raster(alpha, marks_of(40, 50) * 200)
    file = gdal.GetDriverByName("VRT").Create(path, 50, 40, 0)
    for name, kind in ((data, gdal.GDT_Float32), (alpha, gdal.GDT_Byte)):
        file.AddBand(kind)
        source = f'<SimpleSource><SourceFilename relativeToVRT="0">{name}</SourceFilename><SourceBand>1</SourceBand></SimpleSource>'
        file.GetRasterBand(file.RasterCount).SetMetadataItem("source_0", source, "new_vrt_sources")
    file.GetRasterBand(2).SetColorInterpretation(gdal.GCI_AlphaBand)
    file = None
    return path


def sparse(path, sides=(130, 110), nodata=None, part=None, at=(0, 0), kind=gdal.GDT_Float32, tile=32):
    """A tiled TIFF in which only a part is written; `at` is its row and column."""
    file = gdal.GetDriverByName("GTiff").Create(path, sides[1], sides[0], 1, kind,
                                                ["SPARSE_OK=TRUE", "TILED=YES", f"BLOCKXSIZE={tile}", f"BLOCKYSIZE={tile}", "COMPRESS=DEFLATE"])
    if nodata is not None:
        file.GetRasterBand(1).SetNoDataValue(nodata)
    if part is not None:
        file.GetRasterBand(1).WriteArray(part, at[1], at[0])
    file = None
    return path


class Marks(Case):
    """Valid pixels: from the raster itself, and from a file of marks."""

    def auto_cases(self):
        """Label, raster name, name for GDAL, band, pattern of the source, more words."""
        nodata, mask, alpha, nan = r"no.?data", r"mask", r"alpha", r"nan"
        two = numpy.stack([with_holes("f4", -9999), with_holes("f4", -9999)[::-1]])
        two[1, 0, :5] = numpy.nan
        inside, part = values("f4", 50, 60), values("u1", 40, 50)
        holes = with_holes("f4", numpy.nan)
        both = with_holes("f4", -9999.0)
        both[numpy.random.default_rng(3).uniform(size=both.shape) < 0.1] = numpy.nan
        masked = inside.copy()
        masked[7, 11:20] = numpy.nan
        Image.fromarray(part, "L").save(self.at("key.png"), transparency=7)
        Image.fromarray(numpy.dstack([part, numpy.random.default_rng(1).choice(numpy.array([0, 1, 77, 255], "u1"), part.shape)]),
                        "LA").save(self.at("la.png"))
        scaled = lambda file: (file.GetRasterBand(1).SetScale(0.01), file.GetRasterBand(1).SetOffset(-3.5))
        envi = self.tiff("e.dat", with_holes("f4", -9999.0), driver="ENVI", nodata=-9999.0)
        names = [("nodata", self.tiff("nodata.tif", with_holes("f4", -9999.0), nodata=-9999.0), nodata),
                 ("nodata of no exact f4", self.tiff("inexact.tif", with_holes("f4", numpy.float32(-9999.1)), nodata=-9999.1), nodata),
                 ("least f4 as nodata", self.tiff("least.tif", with_holes("f4", numpy.finfo("f4").min), nodata=float(numpy.finfo("f4").min)), nodata),
                 ("nodata of zero", self.tiff("zero.tif", with_holes("f4", 0.0), "COMPRESS=LZW", nodata=0.0), nodata),
                 ("nodata i2", self.tiff("i2.tif", with_holes("i2", -32768), nodata=-32768), nodata),
                 ("nodata i8", self.tiff("i8.tif", with_holes("i8", -2**62), nodata=-2**62), nodata),
                 ("NaN", self.tiff("nan.tif", holes), nan), ("NaN nodata", self.tiff("nannodata.tif", holes, nodata=float("nan")), f"{nodata}|{nan}"),
                 ("NaN nodata f8", self.tiff("nan8.tif", with_holes("f8", numpy.nan), nodata=float("nan")), f"{nodata}|{nan}"),
                 ("nodata and NaN", self.tiff("both.tif", both, nodata=-9999.0), nodata),
                 ("mask inside", self.tiff("inside.tif", inside, change=with_mask), mask),
                 ("mask beside", self.tiff("beside.tif", inside, change=lambda file: with_mask(file, False)), mask),
                 ("mask of odd values", self.tiff("odd.tif", inside, change=lambda file: with_mask(file, False, (0, 1, 128, 254))), mask),
                 ("mask and NaN", self.tiff("masknan.tif", masked, "COMPRESS=DEFLATE", change=with_mask), mask),
                 ("alpha", with_alpha(self.at("alpha.tif")), alpha), ("alpha u2", with_alpha(self.at("alpha2.tif"), "u2"), alpha),
                 ("alpha of a PNG", self.at("la.png"), alpha), ("alpha of a VRT", mixed_alpha(self.at("m.vrt"), self.folder.name), alpha),
                 ("key of a PNG", self.at("key.png"), nodata), ("nothing", self.tiff("none.tif", inside), "."),
                 ("everything", self.tiff("all.tif", numpy.full((40, 50), -9999, "f4"), nodata=-9999.0), nodata), ("ENVI", envi, nodata),
                 ("HFA", self.tiff("h.img", with_holes("f4", -9999.0), driver="HFA", nodata=-9999.0), nodata),
                 ("AAIGrid", copied(self.at("a.asc"), with_holes("i4", -9999), "AAIGrid", nodata=-9999), nodata),
                 ("NetCDF", netcdf(self.at("n.nc"), {"vv": (with_holes("f4", -9999.0), {"_FillValue": numpy.float32(-9999)})}), nodata),
                 ("sparse", sparse(self.at("s.tif"), nodata=-9999.0, part=values("f4", 40, 50), at=(30, 37)), nodata)]
        cases = [(label, name, name, 1, pattern, ()) for label, name, pattern in names]
        path = self.tiff("two.tif", two, nodata=-9999.0)
        cases += [(f"band {band}", f"{path}:{band}", path, band, nodata, ()) for band in (1, 2)]
        path = self.tiff("scaled.tif", with_holes("i2", -9999), nodata=-9999, change=scaled)
        return cases + [(f"scaling {word}", path, path, 1, nodata, ("--scaling", word)) for word in ("apply", "raw")]

    def test_auto(self):
        cases = self.auto_cases()
        expected = [gdal_marks(source, band) for _, _, source, band, _, _ in cases]
        wanted = [gdal_read(source, band) for _, _, source, band, _, _ in cases]
        wanted = [array * 0.01 + -3.5 if label == "scaling apply" else array for array, (label, *_) in zip(wanted, cases)]
        for name, array in (("holes.npy", with_holes("f4", numpy.nan)), ("whole.npy", values("f8", 40, 50))):
            cases.append((name, self.save(name, array), None, 1, "nan" if "holes" in name else ".", ()))
            expected.append((~numpy.isnan(array)).astype("u1"))
            wanted.append(array)
        shares = [array.mean() for array in expected]
        self.assertTrue(sum(0.05 < share < 0.95 for share in shares) > 22 and 0 in shares and 1 in shares, "the cases are not as meant")
        calls = [("read", name, "--marks", "auto", *words, "--out", self.at(f"x{index}.npy"), "--marks-out", self.at(f"m{index}.npy"))
                 for index, (_, name, _, _, _, words) in enumerate(cases)]
        wrong = []
        for index, (result, (label, _, _, _, pattern, _)) in enumerate(zip(self.together(calls), cases)):
            if result.returncode:
                wrong.append(f"{label}: status {result.returncode}, {result.stderr}")
                continue
            found, count = numpy.load(self.at(f"m{index}.npy")), int((expected[index] == 0).sum())
            text = differences(numpy.load(self.at(f"x{index}.npy")), wanted[index])
            if text:
                wrong.append(f"{label}: {text}")
            if found.dtype != numpy.uint8 or found.shape != expected[index].shape or (found != expected[index]).any():
                wrong.append(f"{label}: the marks are not GDAL's: {found.dtype} {found.shape}, {(found == 0).sum()} invalid, not {count}")
            numbers = re.findall(r"\d+", result.stderr.replace(",", ""))
            if str(count) not in numbers and not (count == 0 and re.search(r"\bno(ne)?\b", result.stderr)):
                wrong.append(f"{label}: {count} invalid pixels are not told: {result.stderr!r}")
            if not re.search(pattern, result.stderr.replace(self.folder.name, "").replace(os.path.basename(cases[index][1]), ""), re.IGNORECASE):
                wrong.append(f"{label}: the source is not told: {result.stderr!r}")
        self.none(wrong, len(cases))

    def test_alpha_that_gdal_does_not_take(self):
        """GDAL makes no mask of an f4 alpha band: its zeros must not come out as valid without a word."""
        path = with_alpha(self.at("alpha.tif"), "f4")
        alpha = gdal_read(path, 2)
        result = self.run_program("read", path, "--marks", "auto", "--out", self.at("x.npy"), "--marks-out", self.at("m.npy"))
        if result.returncode == 0:
            self.assertTrue((numpy.load(self.at("m.npy")) == (alpha != 0)).all(), "an alpha of 0 was taken as valid")
        else:
            self.judge(result, 74, ["alpha"], "alpha f4")

    def test_auto_cropped(self):
        array = with_holes("f4", -9999.0)
        path = self.tiff("a.tif", array, nodata=-9999.0)
        result = self.done("read", path, "--marks", "auto", "--crop", "10,20,30,25", "--out", self.at("x.npy"), "--marks-out", self.at("m.npy"))
        part = array[10:40, 20:45]
        self.same(numpy.load(self.at("x.npy")), part)
        self.assertTrue((numpy.load(self.at("m.npy")) == (part != -9999)).all())
        self.assertIn(str((part == -9999).sum()), re.findall(r"\d+", result.stderr.replace(",", "")))

    def test_auto_is_the_same_as_a_file(self):
        """Every command with marks of its own gives what it gives with the same marks in a file."""
        bands, gone = numpy.stack([decibels(40, 50, 1), decibels(40, 50, 2)]), marks_of(40, 50) == 0
        bands[:, gone] = -9999.0
        scene = self.tiff("scene.tif", bands, nodata=-9999.0)
        marks = self.tiff("marks.tif", (~gone).astype("u1"))
        one, two = f"{scene}:1", f"{scene}:2"
        plain = [("stats", one), ("window", one, "--strategy", "robust"), ("grey", one, "--strategy", "tamed", "--depth", "16", "--out",
                                                                           self.at("g.npy"))]
        for words in plain:
            auto = self.done(*words, "--marks", "auto").stdout, pathlib.Path(self.at("g.npy")).read_bytes() if words[0] == "grey" else b""
            file = self.done(*words[:2], marks, *words[2:]).stdout, pathlib.Path(self.at("g.npy")).read_bytes() if words[0] == "grey" else b""
            self.assertEqual(auto, file)
        both = self.tiff("both.tif", numpy.stack([~gone, ~gone]).astype("u1"))
        more = ("--strategy", "robust", "--mode", "rgb-ratio")
        forms = [(one, marks, two, marks), (scene, marks), (scene, both), (scene, "--marks", "auto"), (one, two, "--marks", "auto"),
                 (one, f"{both}:1", two, f"{both}:2")]
        self.all_done([("picture", *words, *more, "--out", self.at(f"p{index}.npy")) for index, words in enumerate(forms)])
        for index in range(1, len(forms)):
            self.assertTrue((numpy.load(self.at(f"p{index}.npy")) == numpy.load(self.at("p0.npy"))).all(), forms[index])
        pages = [(one, marks), (scene, marks), (one, marks, two, marks), (one, "--marks", "auto"), (scene, "--marks", "auto"),
                 (one, two, "--marks", "auto")]
        self.all_done([("view", *words, "--strategy", "robust", "--out", self.at(f"{index}.html")) for index, words in enumerate(pages)])
        for index in range(len(pages)):
            self.assertIn("<html", pathlib.Path(self.at(f"{index}.html")).read_text()[:2000].lower())

    def test_different_marks_of_two_bands(self):
        """The first band of a file of marks belongs to the first band of the scene."""
        scene = self.tiff("scene.tif", numpy.stack([decibels(40, 50, 1), decibels(40, 50, 2)]))
        marks = self.tiff("marks.tif", numpy.stack([marks_of(40, 50, 1), marks_of(40, 50, 2)]))
        forms = [(scene, marks), (f"{scene}:1", f"{marks}:1", f"{scene}:2", f"{marks}:2"), (f"{scene}:1", f"{marks}:2", f"{scene}:2", f"{marks}:1")]
        more = ("--strategy", "equalized", "--mode", "rgb-ratio")
        self.all_done([("picture", *words, *more, "--out", self.at(f"p{index}.npy")) for index, words in enumerate(forms)])
        pictures = [numpy.load(self.at(f"p{index}.npy")) for index in range(3)]
        self.assertTrue((pictures[0] == pictures[1]).all())
        self.assertFalse((pictures[0] == pictures[2]).all())

    def test_files(self):
        """Marks of every type, and what is refused."""
        db, marks = self.tiff("db.tif", decibels(40, 50)), marks_of(40, 50)
        files = [self.tiff(f"{kind}.tif", marks.astype(kind)) for kind in ("u1", "i2", "u2", "i4", "f4", "f8")]
        files += [self.tiff("bit.tif", marks, "NBITS=1"), self.tiff("fax.tif", marks, "NBITS=1", "COMPRESS=CCITTFAX4"),
                  self.tiff("e.dat", marks, driver="ENVI")]
        files += [self.save(f"{kind}.npy", marks.astype(kind)) for kind in ("?", "u1", "i2", ">i4", "f4")]
        files += [self.save("fortran.npy", numpy.asfortranarray(marks)), copied(self.at("m.png"), marks, "PNG")]
        files += [self.tiff("two.tif", numpy.stack([1 - marks, marks])) + ":2"]
        self.all_done([("read", db, name, "--out", self.at(f"x{index}.npy"), "--marks-out", self.at(f"m{index}.npy")) for index,
                       name in enumerate(files)])
        for index, name in enumerate(files):
            found = numpy.load(self.at(f"m{index}.npy"))
            self.assertTrue(found.dtype == numpy.uint8 and (found == marks).all(), name)
            self.same(numpy.load(self.at(f"x{index}.npy")), decibels(40, 50), name)

    def test_255(self):
        db, marks = self.tiff("db.tif", decibels(40, 50)), marks_of(40, 50)
        for name in (self.tiff("m.tif", marks * 255), self.save("m.npy", marks * 255), self.tiff("m2.tif", marks.astype("i2") * 255)):
            self.done("read", db, name, "--marks-255", "--out", self.at("x.npy"), "--marks-out", self.at("found.npy"))
            self.assertTrue((numpy.load(self.at("found.npy")) == marks).all())
        bent = marks * 255
        bent[13, 17] = 1
        self.refused(3, ["bent.tif", *place(13, 17), r"\b1\b"], "stats", db, self.tiff("bent.tif", bent), "--marks-255")
        self.refused(3, [r"m\.tif", r"\b255\b"], "stats", db, self.at("m.tif"))

    def test_wrong_values(self):
        db, marks = self.tiff("db.tif", decibels(40, 50)), marks_of(40, 50)
        cases = []
        for index, (kind, value, text) in enumerate((("u1", 2, "2"), ("i2", -1, "-1"), ("f4", 0.5, r"0\.5"), ("u2", 256, "256"),
                                                     ("f4", numpy.nan, "nan"),
                                                     ("i4", 65537, "65537"), ("f8", 1 + 2**-52, r"1\.0000000000000002"), ("f8", 5e-324, ""),
                                                     ("f4", 257, "257"), ("i4", 2**32 // 2 - 1, "2147483647"))):
            bent = marks.astype(kind)
            bent[29, 31] = value
            name = self.tiff(f"m{index}.tif", bent) if index % 2 else self.save(f"m{index}.npy", bent)
            patterns = [os.path.basename(name).replace(".", r"\."), *place(29, 31), text]
            cases += [(3, patterns, ("stats", db, name)), (3, patterns, ("read", db, name)),
                      (3, patterns, ("stats", db, name, "--crop", "20,25,15,20"))]
            if index < 2:
                self.done("stats", db, name, "--crop", "0,0,29,50")
        two = numpy.stack([marks, marks])
        two[1, 5, 6] = 7
        name = self.tiff("two.tif", two)
        cases.append((3, [r"two\.tif", r"band\W{0,3}2|:2", *place(5, 6), r"\b7\b"], ("stats", db, name + ":2")))
        cases.append((3, [r"two\.tif", r"band\W{0,3}2|:2", *place(5, 6), r"\b7\b"], ("picture", db, name + ":1", db, name + ":2", "--mode",
                                                                                     "rgb-ratio")))
        self.all_refused(cases)

    def test_white_is_least(self):
        """Marks and greys in which 0 is white would come out turned round."""
        db, marks = self.tiff("db.tif", decibels(40, 50)), marks_of(40, 50)
        cases = []
        for index, options in enumerate(((), ("NBITS=1",), ("NBITS=1", "COMPRESS=CCITTFAX4"), ("COMPRESS=DEFLATE", "TILED=YES"))):
            name = self.tiff(f"white{index}.tif", marks, "PHOTOMETRIC=MINISWHITE", *options)
            cases += [(74, [rf"white{index}\.tif"], ("stats", db, name)), (74, [rf"white{index}\.tif"], ("read", db, name))]
        for kind in ("u1", "u2"):
            name = self.tiff(f"grey-{kind}.tif", values(kind, 40, 50), "PHOTOMETRIC=MINISWHITE")
            cases += [(74, ["grey-"], words) for words in (("stretch", name), ("pad", name), ("compose", name, name, "--mode", "rgb-ratio"))]
        self.all_refused(cases)
