"""Where GDAL itself says nothing: masks of one band, signed nodata, odd alpha bands, what stands behind a VRT, files cut short, the environment."""
import os
import pathlib
import subprocess

import numpy
from osgeo import gdal

from rasters.files import PROGRAM, Case, crs, decibels, gdal_marks, png, raster, utm, values


def alpha_after(*numbers):
    """Makes alpha bands of some bands."""
    def change(file):
        for number in numbers:
            file.GetRasterBand(number).SetColorInterpretation(gdal.GCI_AlphaBand)
    return change


class Silent(Case):
    def marks(self, name):
        self.done("read", name, "--marks", "auto", "--out", self.at("x.npy"), "--marks-out", self.at("m.npy"))
        return numpy.load(self.at("m.npy"))

    def test_a_mask_of_one_band(self):
        """A mask that belongs to one band alone has no flag at all in GDAL."""
        holes = (numpy.arange(2000).reshape(40, 50) % 7 == 0)
        for driver, ending in (("GTiff", ".tif"), ("ENVI", ".img"), ("HFA", ".hfa")):
            name = self.tiff("b" + ending, numpy.stack([decibels(40, 50, 1), decibels(40, 50, 2)]), driver=driver)
            file = gdal.Open(name, gdal.GA_Update)
            file.GetRasterBand(2).CreateMaskBand(0)
            file.GetRasterBand(2).GetMaskBand().WriteArray(numpy.where(holes, 0, 255).astype("u1"))
            file = None
            self.assertTrue((self.marks(name + ":2") == ~holes).all(), driver)
            self.assertTrue((self.marks(name + ":1") == gdal_marks(name, 1)).all(), driver)

    def test_nodata_of_signed_bytes(self):
        array = values("i1", 40, 50)
        array[3:9] = -128
        name = self.tiff("s.tif", array, "PIXELTYPE=SIGNEDBYTE", nodata=-128)
        self.assertTrue((self.marks(name) == (array != -128)).all())

    def test_alpha_bands(self):
        gone = numpy.where(numpy.arange(2000).reshape(40, 50) % 5 == 0, 0.0, 1.0).astype("f4")
        bands = [decibels(40, 50, seed) for seed in range(20)]
        three = self.tiff("three.tif", numpy.stack([bands[0], bands[1], gone]), change=alpha_after(3))
        self.assertTrue((self.marks(three + ":2") == gone).all(), "after two bands")
        many = self.tiff("many.tif", numpy.stack([*bands, gone]), change=alpha_after(21))
        self.assertTrue((self.marks(many + ":2") == gone).all(), "after twenty bands")
        self.refused(64, ["20 bands"], "read", many)
        pairs = self.tiff("pairs.tif", numpy.stack([bands[0], gone, bands[1], 1 - gone]), change=alpha_after(2, 4))
        self.refused(74, ["2 alpha bands"], "read", pairs + ":3", "--marks", "auto")

    def test_a_damaged_alpha_band(self):
        alpha = numpy.random.default_rng(3).choice(numpy.array([0, 255], "u1"), (64, 64))
        name = self.tiff("a.tif", numpy.stack([values("u1", 64, 64), alpha]), "ALPHA=YES", "INTERLEAVE=BAND", "COMPRESS=DEFLATE", change=alpha_after(2))
        self.assertTrue((self.marks(name) == (alpha != 0)).all())
        file = gdal.Open(name)
        start = int(file.GetRasterBand(2).GetMetadataItem("BLOCK_OFFSET_0_0", "TIFF"))
        file = None
        bent = bytearray(pathlib.Path(name).read_bytes())
        bent[start + 40] ^= 16
        pathlib.Path(name).write_bytes(bent)
        self.refused(74, ["damaged"], "read", name, "--marks", "auto")

    def test_behind_a_vrt(self):
        """What is refused by itself is refused behind a VRT."""
        array = decibels(64, 64)
        self.tiff("be.tif", array, "ENDIANNESS=BIG", "COMPRESS=LZW", "PREDICTOR=3")
        self.tiff("e.img", array, driver="ENVI")
        self.tiff("white.tif", (values("u1", 64, 64) % 2), "PHOTOMETRIC=MINISWHITE")
        self.tiff("bits.tif", values("u1", 64, 64, top=16), "NBITS=4")
        png(self.at("moving.png"), 4, 4, 8, bytes(5 * 4), before=[(b"acTL", bytes(8))])
        for stem, ending in (("be", ".tif"), ("e", ".img"), ("white", ".tif"), ("bits", ".tif"), ("moving", ".png")):
            gdal.Translate(self.at(stem + ".vrt"), self.at(stem + ending), format="VRT").FlushCache()
        whole = pathlib.Path(self.at("e.img")).read_bytes()
        pathlib.Path(self.at("e.img")).write_bytes(whole[:12800])
        db = self.tiff("db.tif", array)
        pathlib.Path(self.at("raw.bin")).write_bytes(whole[:12800])
        pathlib.Path(self.at("raw.vrt")).write_text(
            '<VRTDataset rasterXSize="64" rasterYSize="64"><VRTRasterBand dataType="Float32" band="1" subClass="VRTRawRasterBand"><SourceFilename relativeToVRT="1">'
            "raw.bin</SourceFilename><ImageOffset>0</ImageOffset><PixelOffset>4</PixelOffset><LineOffset>256</LineOffset><ByteOrder>LSB</ByteOrder></VRTRasterBand></VRTDataset>")
        self.all_refused([
            (74, ["predictor 3"], ("read", self.at("be.vrt"))), (74, ["truncated"], ("read", self.at("e.vrt"))), (74, ["raw"], ("read", self.at("raw.vrt"))),
            (74, ["MINISWHITE"], ("read", db, self.at("white.vrt"))), (74, ["4 bits"], ("stretch", self.at("bits.vrt"))), (74, ["animated"], ("stretch", self.at("moving.vrt")))])

    def test_holes_of_a_vrt(self):
        holed = decibels(64, 64)
        holed[:20] = -9999
        source = self.tiff("n.tif", holed, nodata=-9999.0, change=utm)
        gdal.BuildVRT(self.at("bare.vrt"), [source], VRTNodata="None").FlushCache()
        whole = self.tiff("w.tif", decibels(64, 64), change=utm)
        gdal.Warp(self.at("warped.vrt"), whole, format="VRT", dstSRS="EPSG:32633").FlushCache()
        self.all_refused([(74, ["sparse"], ("read", self.at(name), "--marks", "auto")) for name in ("bare.vrt", "warped.vrt")])
        gdal.BuildVRT(self.at("kept.vrt"), [source]).FlushCache()
        self.assertTrue((self.marks(self.at("kept.vrt")) == (holed != -9999)).all())

    def test_cut_files(self):
        array = decibels(64, 64)
        self.tiff("e.img", array, driver="ENVI")
        pathlib.Path(self.at("e.img.aux.xml")).write_text("<PAMDataset>" + " " * 20000 + "</PAMDataset>")
        gdal.Translate(self.at("p.map"), self.tiff("p.tif", array), format="PCRaster", metadataOptions=["PCRASTER_VALUESCALE=VS_SCALAR"]).FlushCache()
        self.same_as_gdal(self.at("p.map"))
        for name in ("e.img", "p.map"):
            whole = pathlib.Path(self.at(name)).read_bytes()
            pathlib.Path(self.at(name)).write_bytes(whole[: len(whole) * 7 // 10])
        self.all_refused([(74, ["truncated"], ("read", self.at(name))) for name in ("e.img", "p.map")])

    def test_the_environment(self):
        """GDAL's options in the environment change nothing that is read."""
        holes = (numpy.arange(2000).reshape(40, 50) % 3 == 0)
        name = self.tiff("a.tif", decibels(40, 50))
        file = gdal.Open(name)
        file.CreateMaskBand(gdal.GMF_PER_DATASET)
        file.GetRasterBand(1).GetMaskBand().WriteArray(numpy.where(holes, 0, 255).astype("u1"))
        file = None
        self.assertTrue(os.path.exists(name + ".msk"))
        environment = {**os.environ, "GDAL_DISABLE_READDIR_ON_OPEN": "EMPTY_DIR", "GDAL_PAM_ENABLED": "NO", "GDAL_SKIP": "GTiff", "GTIFF_IGNORE_READ_ERRORS": "YES"}
        words = ["read", name, "--marks", "auto", "--out", self.at("x.npy"), "--marks-out", self.at("m.npy")]
        result = subprocess.run([PROGRAM, *words], env=environment, capture_output=True, text=True)
        self.assertEqual(result.returncode, 0, result.stderr)
        self.assertTrue((numpy.load(self.at("m.npy")) == ~holes).all())

    def test_marks_of_another_band(self):
        two = self.tiff("two.tif", numpy.stack([decibels(40, 50, 1), decibels(40, 50, 2)]))
        marks = self.tiff("m.tif", numpy.stack([numpy.ones((40, 50), "u1"), numpy.zeros((40, 50), "u1")]))
        self.refused(64, ["name the one"], "view", two + ":2", marks, out="page.html")
        seven = numpy.ones((40, 50), "u1")
        seven[5, 6] = 7
        self.refused(3, [r"seven\.tif, band 1, row 5, column 6: 7"], "grey", two + ":2", self.tiff("seven.tif", seven))

    def test_marks_against_nodata(self):
        """A marks file decides, and what it contradicts is told."""
        array = decibels(40, 50)
        array[0, :12] = -20.5
        name, ones = self.tiff("n.tif", array, nodata=-20.5), self.save("ones.npy", numpy.ones((40, 50), "u1"))
        self.assertIn("12 pixels that the marks call valid", self.done("stats", name, ones).stderr)
        marks = numpy.ones((40, 50), "u1")
        marks[0, :12] = 0
        self.assertEqual(self.done("stats", name, self.save("right.npy", marks)).stderr, "")

    def test_radar_products(self):
        for text, status in (("Sentinel-1A IW GRD HR L1", 74), ("sigma0 in dB of a GRD", 0)):
            name = self.tiff("p.tif", decibels(40, 50), change=lambda file, text=text: file.SetMetadataItem("TIFFTAG_IMAGEDESCRIPTION", text))
            self.assertEqual(self.run_program("read", name, "--out", self.at("x.npy")).returncode, status, text)

    def test_an_output_that_is_an_input(self):
        name = self.tiff("scene.tif", numpy.stack([decibels(40, 50, 1), decibels(40, 50, 2)]))
        marks = self.save("m.npy", numpy.ones((40, 50), "u1"))
        before = pathlib.Path(name).read_bytes()
        os.symlink(name, self.at("link.tif"))
        for words in (("picture", name, "--marks", "auto", "--out", name), ("grey", name + ":1", marks, "--out", self.at("link.tif")),
                      ("op", "sum", name + ":1", name + ":2", "--out", name)):
            result = self.run_program(*words)
            self.judge(result, 64, ["one of the inputs"], words)
            self.assertEqual(pathlib.Path(name).read_bytes(), before)

    def test_not_a_file(self):
        self.refused(74, ["not a plain file"], "read", "/vsistdin/")

    def test_what_lies_elsewhere_is_told(self):
        def far(file):
            file.SetGeoTransform((100.0, 10.0, 0.0, 5200000.0, 0.0, -10.0))
            file.SetSpatialRef(crs(32632))

        one, two = self.tiff("one.tif", decibels(40, 50), change=utm), self.tiff("two.tif", decibels(40, 50, 2), change=far)
        self.assertIn("elsewhere", self.done("op", "sum", one, two, "--out", self.at("o.npy")).stderr)
        marks = self.tiff("m.tif", numpy.ones((40, 50), "u1"), change=far)
        self.assertIn("elsewhere", self.done("grey", one, marks, "--out", self.at("g.npy")).stderr)

    def test_what_stands_beside_from_before_is_told(self):
        one = self.tiff("one.tif", decibels(40, 50), change=utm)
        self.done("grey", one, "--marks", "auto", "--world", "--out", self.at("g.png"))
        told = self.done("grey", one, "--marks", "auto", "--crop", "1,2,20,20", "--out", self.at("g.png")).stderr
        self.assertIn("g.png.aux.xml is not of this result", told)
        self.assertIn("g.pgw is not of this result", told)
        pathlib.Path(self.at("g.tfw")).write_text("1\n0\n0\n1\n0\n0\n")
        self.assertNotIn("not of this result", self.done("grey", one, "--marks", "auto", "--out", self.at("g.npy")).stderr)

    def test_control_points_of_points(self):
        def points(file):
            file.SetMetadataItem("AREA_OR_POINT", "Point")
            file.SetGCPs([gdal.GCP(8 + 0.1 * col, 55 - 0.1 * row, 0, col, row) for row in (0.5, 30.5) for col in (1.5, 40.5)], crs(4326))

        file = gdal.GetDriverByName("MEM").Create("", 50, 40, 1, gdal.GDT_Float32)
        points(file)
        file.GetRasterBand(1).WriteArray(decibels(40, 50))
        gdal.GetDriverByName("GTiff").CreateCopy(self.at("p.tif"), file).FlushCache()
        for more in ((), ("--cog",)):
            self.done("grey", self.at("p.tif"), "--marks", "auto", *more, "--out", self.at("o.tif"))
            places = [[(p.GCPPixel, p.GCPLine, p.GCPX, p.GCPY) for p in gdal.Open(self.at(name)).GetGCPs()] for name in ("p.tif", "o.tif")]
            self.assertEqual(*places, more)

    def test_a_long_list(self):
        """One row of very many columns is no picture of tiles."""
        name = self.save("long.npy", numpy.arange(1 << 21, dtype="f4")[None])
        self.done("op", "sum", name, name, "--out", self.at("long.tif"))
        file = gdal.Open(self.at("long.tif"))
        self.assertTrue((file.GetRasterBand(1).ReadAsArray() == 2 * numpy.load(name)).all())

    def test_sides_before_words(self):
        """A raster that is too wide is refused 1 whatever its unit says."""
        name = self.at("wide.tif")
        raster(name, numpy.zeros((1, 5000), "f4"), change=lambda file: file.GetRasterBand(1).SetUnitType("m"))
        self.all_refused([(1, ["--crop"], ("read", name)), (1, ["--crop"], ("stats", name, "--marks", "auto"))])
