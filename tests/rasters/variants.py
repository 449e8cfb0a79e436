"""Every kind of file, pixel by pixel and bit by bit; and that the comparison can fail."""
import os
import pathlib
import shutil
import tempfile
import zlib

import numpy
from osgeo import gdal
from PIL import Image

from rasters.files import (Case, copied, differences, float_predicted, gdal_read, interlaced, netcdf, npy, packed, png, raster, raw_tiff,
    strips, utm, values)
from rasters.told import flat


class Table:
    """The variants: label, raster name, words, expected values, whether GDAL makes up a colour table (then 74 is right too)."""

    def __init__(self, folder):
        self.folder, self.rows, self.count = folder, [], 0

    def at(self, ending):
        self.count += 1
        return os.path.join(self.folder, f"v{self.count}{ending}")

    def add(self, label, path, *originals, name=None, words=(), lossless=True):
        """A file of some bands; GDAL must read what was written, else the making is wrong."""
        for band, original in enumerate(originals, 1):
            whole = name or (path if len(originals) == 1 else f"{path}:{band}")
            expected = gdal_read(name or path, band)
            if lossless and original is not None:
                text = differences(expected, original)
                if text:
                    raise AssertionError(f"{label} is not made as meant: {text}")
            file = gdal.Open(name or path)
            made_up = file.GetRasterBand(band).GetColorTable() is not None
            file = None
            self.rows.append((label if len(originals) == 1 else f"{label}, band {band}", whole, words, expected, made_up))

    def made(self, label, bands, *options, ending=".tif", name=None, words=(), lossless=True, **more):
        bands = numpy.asarray(bands)
        bands = bands[None] if bands.ndim == 2 else bands
        path = raster(self.at(ending), bands, *options, **more)
        self.add(f"{label} {' '.join(options)}", path, *bands, words=words, lossless=lossless)
        return path

    def copied(self, label, array, driver, ending, *options, lossless=True, **more):
        path = copied(self.at(ending), array, driver, *options, **more)
        self.add(f"{label} {' '.join(options)}", path, array, lossless=lossless)
        return path

    def numpy(self, label, array, version=None):
        path = npy(self.at(".npy"), array, version)
        self.rows.append((label, path, (), array.astype("f8"), False))


LAYOUTS = [("TILED=YES", "BLOCKXSIZE=16", "BLOCKYSIZE=16"), ("BLOCKYSIZE=1",), ("TILED=YES", "BLOCKXSIZE=32", "BLOCKYSIZE=64"), ("BLOCKYSIZE=7",),
           ("TILED=YES", "BLOCKXSIZE=64", "BLOCKYSIZE=64"), ("BLOCKYSIZE=16",), ("TILED=YES", "BLOCKXSIZE=256", "BLOCKYSIZE=256"),
           ("BLOCKYSIZE=1000",)]
SIDES = [(64, 48), (65, 47), (128, 96), (57, 131), (40, 40), (96, 64), (63, 65), (1, 77), (77, 1), (33, 129), (47, 128)]


def tiffs(table):
    """TIFFs of GDAL: compressions, predictors, types, layouts, bands."""
    turn = 0
    for kind in ("f4", "f8", "i2", "u1", "u2", "i4"):
        for packing in ("NONE", "LZW", "PACKBITS", "DEFLATE", "LZMA", "ZSTD", "LERC", "LERC_DEFLATE", "LERC_ZSTD"):
            if kind in ("u2", "i4") and packing not in ("LZW", "DEFLATE"):
                continue
            predictors = (1, 2, 3) if kind[0] == "f" else (1, 2)
            for predictor in predictors if packing in ("LZW", "DEFLATE", "ZSTD") else (1,):
                rows, cols = SIDES[turn % len(SIDES)]
                options = [*LAYOUTS[turn % len(LAYOUTS)], f"COMPRESS={packing}"]
                options += [f"PREDICTOR={predictor}"] if predictor > 1 else []
                options += ["MAX_Z_ERROR=0"] if "LERC" in packing else []
                table.made(kind, values(kind, rows, cols, turn), *options, lossless="LERC" not in packing)
                turn += 1
    for rows, cols in ((256, 512), (512, 256), (300, 270), (257, 255)):
        table.made("big tiles", values("f4", rows, cols), "TILED=YES", "BLOCKXSIZE=256", "BLOCKYSIZE=256", "COMPRESS=DEFLATE", "PREDICTOR=3")
    table.made("512 squared", values("f8", 512, 512), "TILED=YES", "BLOCKXSIZE=256", "BLOCKYSIZE=256")
    table.made("one pixel", values("f4", 1, 1))
    table.made("the longest row", values("i2", 2, 4096), "COMPRESS=DEFLATE")
    for kind in ("u4", "i8", "u8", "i1"):
        more = {"i1": ("PIXELTYPE=SIGNEDBYTE",)}.get(kind, ())
        table.made(kind, values(kind, 50, 61), *more)
        table.made(kind, values(kind, 64, 64), "TILED=YES", "BLOCKXSIZE=32", "BLOCKYSIZE=32", "COMPRESS=DEFLATE", "PREDICTOR=2", *more)
    for bits, kind in ((1, "u1"), (2, "u1"), (3, "u1"), (4, "u1"), (7, "u1"), (10, "u2"), (12, "u2"), (15, "u2"), (20, "u4"), (24, "u4")):
        table.made("bits", values(kind, 45, 53, bits, 2**bits), f"NBITS={bits}", "COMPRESS=LZW" if bits % 2 else "COMPRESS=NONE")
    table.made("halves", values("f4", 45, 53).astype("f2").astype("f4"), "NBITS=16")
    table.made("halves", values("f4", 64, 32).astype("f2").astype("f4"), "NBITS=16", "COMPRESS=DEFLATE", "PREDICTOR=3", "TILED=YES", "BLOCKXSIZE=16",
               "BLOCKYSIZE=16")
    for packing in ("CCITTRLE", "CCITTFAX3", "CCITTFAX4"):
        table.made("one bit", values("u1", 45, 53, 3, 2), "NBITS=1", f"COMPRESS={packing}")
    for more in ((), ("COMPRESS=DEFLATE", "PREDICTOR=2"), ("COMPRESS=LZW",), ("TILED=YES", "BLOCKXSIZE=32", "BLOCKYSIZE=16", "COMPRESS=ZSTD")):
        for kind in ("f4", "f8"):
            table.made(kind, values(kind, 50, 70), "ENDIANNESS=BIG", *more)
    table.add("by hand, predictor 3", float_predicted(table.at(".tif"), values("f4", 50, 70), "<"), values("f4", 50, 70))
    for order in "<>":
        for packing in (1, 8):
            tags, data = strips(values("f4", 50, 70), packing, 13, order)
            table.add(f"by hand, compression {packing} {order}", raw_tiff(table.at(".tif"), tags, data, order), values("f4", 50, 70))
    table.made("i2", values("i2", 50, 70), "ENDIANNESS=BIG", "COMPRESS=LZW", "PREDICTOR=2")
    table.made("u2", values("u2", 50, 70), "ENDIANNESS=BIG")
    table.made("i8", values("i8", 50, 70), "ENDIANNESS=BIG", "COMPRESS=DEFLATE")
    table.made("big", values("f4", 50, 70), "BIGTIFF=YES")
    table.made("big", values("f8", 50, 70), "BIGTIFF=YES", "ENDIANNESS=BIG", "TILED=YES", "COMPRESS=DEFLATE", "PREDICTOR=2", "BLOCKXSIZE=16",
               "BLOCKYSIZE=32")
    for order in ("PIXEL", "BAND"):
        two = numpy.stack([values("f4", 60, 75, 1), values("f4", 60, 75, 2)])
        table.made("two bands", two, f"INTERLEAVE={order}")
        table.made("two bands", two, f"INTERLEAVE={order}", "COMPRESS=DEFLATE", "PREDICTOR=3", "TILED=YES", "BLOCKXSIZE=32", "BLOCKYSIZE=32")
        table.made("two bands", numpy.stack([values("i2", 41, 90, 1), values("i2", 41, 90, 2)]), f"INTERLEAVE={order}", "COMPRESS=LZW", "PREDICTOR=2",
                   "ENDIANNESS=BIG")
    table.made("white is least", values("f4", 50, 60), "PHOTOMETRIC=MINISWHITE")
    table.made("white is least", values("i2", 50, 60), "PHOTOMETRIC=MINISWHITE", "COMPRESS=LZW")
    table.made("endless", numpy.array([[numpy.inf, -numpy.inf, numpy.nan, 3.4028234663852886e38, -3.4028234663852886e38, 1.5]], "f4"),
               "COMPRESS=DEFLATE")
    table.made("endless", numpy.array([[numpy.inf, -numpy.inf, numpy.nan, 1.7976931348623157e308, 5e-324, 1.5]], "f8"))
    unit = lambda file: (file.GetRasterBand(1).SetUnitType("dB"), file.GetRasterBand(1).SetDescription("Intensity_VV_db"))
    table.made("named decibels", values("f4", 50, 60), change=unit)
    table.made("nodata", values("f4", 50, 60), nodata=-1000.0)
    table.made("nodata is no number", with_holes("f4", numpy.nan), "COMPRESS=ZSTD", nodata=float("nan"))
    for nodata in (-9999.0, float("nan"), 0.0):
        path = table.at(".tif")
        part = values("f4", 40, 50)
        file = gdal.GetDriverByName("GTiff").Create(path, 130, 110, 1, gdal.GDT_Float32, ["SPARSE_OK=TRUE", "TILED=YES", "BLOCKXSIZE=32",
                                                                                          "BLOCKYSIZE=32"])
        file.GetRasterBand(1).SetNoDataValue(nodata)
        file.GetRasterBand(1).WriteArray(part, 37, 30)
        file = None
        table.add(f"sparse, nodata {nodata}", path, None)
    path = raster(table.at(".tif"), values("f4", 300, 310), "TILED=YES", "COMPRESS=DEFLATE")
    gdal.Open(path, gdal.GA_Update).BuildOverviews("AVERAGE", [2, 4])
    table.add("overviews inside", path, values("f4", 300, 310))
    path = raster(table.at(".tif"), values("f4", 300, 310), "COMPRESS=LZW")
    gdal.Open(path).BuildOverviews("NEAREST", [2, 4])
    table.add("overviews beside", path, values("f4", 300, 310))
    for more in (("COMPRESS=DEFLATE", "PREDICTOR=YES"), ("COMPRESS=LZW",), ("COMPRESS=ZSTD", "PREDICTOR=FLOATING_POINT", "BIGTIFF=YES")):
        table.copied("COG", values("f4", 512, 500), "COG", ".tif", "BLOCKSIZE=128", "OVERVIEW_RESAMPLING=AVERAGE", *more)
    table.copied("COG with nodata", with_holes("i2", -9999, 300, 512), "COG", ".tif", "BLOCKSIZE=256", "COMPRESS=LERC", "MAX_Z_ERROR=0", nodata=-9999)
    path = raster(table.at(".tif"), numpy.stack([values("u2", 50, 60), values("u2", 50, 60, 2)]), "ALPHA=YES", "PHOTOMETRIC=MINISBLACK")
    table.add("alpha", path, values("u2", 50, 60))
    table.made("mask inside", values("f4", 50, 60), "COMPRESS=DEFLATE", change=with_mask)
    table.made("mask beside", values("f4", 50, 60), "COMPRESS=DEFLATE", change=lambda file: with_mask(file, inside=False))
    scale = lambda file: (file.GetRasterBand(1).SetScale(1.0), file.GetRasterBand(1).SetOffset(0.0))
    table.made("scale of one", values("i2", 50, 60), change=scale)


def with_holes(kind, hole, rows=50, cols=60):
    array = values(kind, rows, cols, 5)
    array[numpy.random.default_rng(4).uniform(size=array.shape) < 0.2] = hole
    return array


def with_mask(file, inside=True, values_=(0, 255)):
    """A mask with holes for the whole dataset, in the file or beside it."""
    gdal.SetConfigOption("GDAL_TIFF_INTERNAL_MASK", "YES" if inside else "NO")
    file.CreateMaskBand(gdal.GMF_PER_DATASET)
    gdal.SetConfigOption("GDAL_TIFF_INTERNAL_MASK", None)
    source = numpy.random.default_rng(6)
    file.GetRasterBand(1).GetMaskBand().WriteArray(source.choice(numpy.array(values_, "u1"), (file.RasterYSize, file.RasterXSize)))


def swap_envi(path, kind):
    """Turns a little-endian ENVI file to a big-endian one."""
    numpy.fromfile(path, kind).byteswap().tofile(path)
    head = pathlib.Path(path).with_suffix(".hdr")
    text = head.read_text()
    assert "byte order = 0" in text
    head.write_text(text.replace("byte order = 0", "byte order = 1"))


def others(table):
    """Every other kind of file that GDAL reads."""
    two = numpy.stack([values("f4", 41, 53, 1), values("f4", 41, 53, 2)])
    for order in ("BSQ", "BIL", "BIP"):
        table.made("ENVI", two, f"INTERLEAVE={order}", driver="ENVI", ending=".dat")
        path = raster(table.at(".dat"), two, f"INTERLEAVE={order}", driver="ENVI")
        swap_envi(path, "f4")
        table.add(f"ENVI big-endian {order}", path, *two)
    for kind in ("u1", "i2", "u4", "f8"):
        table.made("ENVI " + kind, values(kind, 41, 53), driver="ENVI", ending=".img")
    path = raster(table.at(".dat"), values("f8", 41, 53), driver="ENVI")
    swap_envi(path, "f8")
    table.add("ENVI big-endian f8", path, values("f8", 41, 53))
    for kind in ("u1", "i2", "f4", "i4"):
        table.made("EHdr " + kind, values(kind, 41, 53), driver="EHdr", ending=".bil")
    table.made("EHdr signed", values("i1", 41, 53), "PIXELTYPE=SIGNEDBYTE", driver="EHdr", ending=".bil")
    for kind in ("f4", "f8", "i2", "u1", "u4"):
        table.made("HFA " + kind, values(kind, 70, 130), *(() if kind in ("f4", "u1") else ("COMPRESSED=YES",)), driver="HFA", ending=".img")
    table.made("HFA bits", values("u1", 70, 130, 1, 16), "NBITS=4", driver="HFA", ending=".img")
    table.copied("AAIGrid", values("i4", 40, 47), "AAIGrid", ".asc", nodata=-9999)
    table.copied("AAIGrid", values("f4", 40, 47), "AAIGrid", ".asc", "SIGNIFICANT_DIGITS=9", lossless=False)
    for kind in ("u1", "u2"):
        table.copied("PNG", values(kind, 40, 47), "PNG", ".png")
        table.copied("JPEG 2000", values(kind, 80, 97), "JP2OpenJPEG", ".jp2", "QUALITY=100", "REVERSIBLE=YES")
    table.copied("JPEG 2000", values("i2", 80, 97), "JP2OpenJPEG", ".jp2", "QUALITY=100", "REVERSIBLE=YES", "CODEC=J2K", "BLOCKXSIZE=64",
                 "BLOCKYSIZE=64")
    for depth in (1, 2, 4):
        array = values("u1", 40, 47, depth, 2**depth)
        table.add(f"PNG of {depth} bits", png(table.at(".png"), 47, 40, depth, zlib.compress(packed(array, depth))), array)
    array = values("u1", 45, 51)
    table.add("PNG interlaced", png(table.at(".png"), 51, 45, 8, zlib.compress(interlaced(array)), interlace=1), array)
    path = table.at(".png")
    Image.fromarray(numpy.dstack([array, values("u1", 45, 51, 2)]), "LA").save(path)
    table.add("PNG with alpha", path, array)
    for driver, ending, kind in (("PCIDSK", ".pix", "f4"), ("ISCE", ".rdr", "f4"), ("SAGA", ".sdat", "f4"), ("PNM", ".pgm", "u2"),
                                 ("NITF", ".ntf", "f4"),
                                 ("RST", ".rst", "f4"), ("KRO", ".kro", "f4"), ("Zarr", ".zarr", "f4"), ("GSBG", ".grd", "f4"),
                                 ("ERS", ".ers", "f4")):
        words = ("--as-decibels",) if driver == "RST" else ()  # its unit is "unspecified"
        table.made(driver, values(kind, 41, 53), driver=driver, ending=ending, words=words, lossless=driver != "GSBG")
    # NetCDF; without coordinates GDAL takes the last row as the northern one
    flat = values("f4", 41, 53)
    for kind in ("NETCDF4", "NETCDF3_CLASSIC", "NETCDF3_64BIT_OFFSET"):
        table.add(kind, netcdf(table.at(".nc"), {"vv": (flat[::-1], {"units": "dB"})}, kind), flat)
    table.add("NETCDF4 i2", netcdf(table.at(".nc"), {"vv": (values("i2", 41, 53), {"long_name": "sigma0 in decibel"})}), values("i2", 41, 53)[::-1])
    table.add("NETCDF4 f8", netcdf(table.at(".nc"), {"vv": (values("f8", 41, 53), {"_FillValue": -9999.0})}), values("f8", 41, 53)[::-1])
    table.copied("NetCDF by GDAL", flat, "netCDF", ".nc", "FORMAT=NC4", "COMPRESS=DEFLATE", change=utm)
    table.copied("NetCDF by GDAL", flat, "netCDF", ".nc", "FORMAT=NC", "WRITE_BOTTOMUP=NO", change=utm)
    path = netcdf(table.at(".nc"), {"vv": (flat, {}), "vh": (values("f4", 41, 53, 2), {})})
    table.add("NetCDF variable vv", path, flat[::-1], name=f'NETCDF:"{path}":vv')
    table.add("NetCDF variable vh", path, values("f4", 41, 53, 2)[::-1], name=f'NETCDF:"{path}":vh')
    table.add("HDF5 variable vh", path, values("f4", 41, 53, 2), name=f'HDF5:"{path}"://vh')
    # VRT
    base = raster(table.at(".tif"), values("f4", 80, 90), "TILED=YES", "BLOCKXSIZE=16", "BLOCKYSIZE=16", "COMPRESS=DEFLATE", nodata=-1000.0)
    path = table.at(".vrt")
    gdal.GetDriverByName("VRT").CreateCopy(path, gdal.Open(base))
    table.add("VRT", path, values("f4", 80, 90))
    path = table.at(".vrt")
    gdal.Translate(path, base, format="VRT", srcWin=[13, 7, 50, 61])
    table.add("VRT of a part", path, values("f4", 80, 90)[7:68, 13:63])
    path = table.at(".vrt")
    gdal.Translate(path, base, format="VRT", outputType=gdal.GDT_Float64, scaleParams=[[-50, 20, 0, 1]])
    table.add("VRT that scales", path, None)
    path = table.at(".vrt")
    gdal.Translate(path, base, format="VRT", width=45, height=40, resampleAlg="nearest")
    table.add("VRT of half the sides", path, None)
    pages = table.at(".tif")
    Image.fromarray(values("f4", 40, 50, 1)).save(pages, save_all=True, append_images=[Image.fromarray(values("f4", 40, 50, 2))])
    table.add("second page", pages, values("f4", 40, 50, 2), name=f"GTIFF_DIR:2:{pages}")


def pillow(table):
    """Files of Pillow."""
    for kind, mode in (("f4", "F"), ("u1", "L"), ("u2", "I;16"), ("i4", "I")):
        for packing in (None, "tiff_lzw", "tiff_adobe_deflate", "packbits", "tiff_deflate"):
            if (kind in ("u2", "i4") and packing not in (None, "tiff_lzw")) or (kind == "u1" and packing in (None, "packbits")):
                continue
            path, array = table.at(".tif"), values(kind, 47, 61)
            image = Image.fromarray(array)
            assert image.mode == mode
            image.save(path, compression=packing)
            table.add(f"Pillow {mode} {packing}", path, array)
    for mode, kind in (("L", "u1"), ("I;16", "u2")):
        path, array = table.at(".png"), values(kind, 47, 61)
        Image.fromarray(array).save(path)
        table.add(f"Pillow {mode} PNG", path, array)
    path, array = table.at(".tif"), values("u1", 47, 61, 1, 2)
    Image.fromarray(array * 255).convert("1").save(path, compression="group4")
    table.add("Pillow group4", path, None)


def numpies(table):
    for kind in ("f8", "f4", "f2", "i1", "i2", "i4", "i8", "u1", "u2", "u4", "u8", "b1"):
        array = values("?" if kind == "b1" else kind, 43, 59)
        for order in ("<", ">") if kind not in ("i1", "u1", "b1") else ("|",):
            table.numpy(f"npy {order}{kind}", array.astype(order + kind))
            table.numpy(f"npy {order}{kind} Fortran", numpy.asfortranarray(array.astype(order + kind)))
    for version in ((1, 0), (2, 0), (3, 0)):
        table.numpy(f"npy version {version}", values("f4", 43, 59), version)
    table.numpy("npy version 2 Fortran big-endian", numpy.asfortranarray(values("f8", 43, 59).astype(">f8")), (2, 0))
    table.numpy("npy of one row", values("f4", 1, 59))
    table.numpy("npy of one column", values("i2", 59, 1).astype(">i2"))
    table.numpy("npy endless", numpy.array([[numpy.inf, -numpy.inf, numpy.nan, 5e-324, -0.0]]))


class Variants(Case):
    """Each file is read exactly as GDAL (or NumPy) reads it."""

    def test_every_pixel(self):
        table = Table(self.folder.name)
        for part in (tiffs, others, pillow, numpies):
            part(table)
        before = sorted(os.listdir(self.folder.name))
        with tempfile.TemporaryDirectory() as folder:
            calls = [("read", name, *words, "--out", os.path.join(folder, f"{index}.npy")) for index, (_, name, words, _, _) in enumerate(table.rows)]
            wrong = []
            for index, ((label, name, _, expected, made_up), result) in enumerate(zip(table.rows, self.together(calls))):
                if result.returncode == 74 and made_up:
                    continue
                if result.returncode:
                    wrong.append(f"{label} ({os.path.basename(name)}): status {result.returncode}, {result.stderr.strip()}")
                    continue
                text = differences(numpy.load(os.path.join(folder, f"{index}.npy")), expected)
                if text:
                    wrong.append(f"{label} ({os.path.basename(name)}): {text}")
        print(f"{len(table.rows)} variants of rasters", flush=True)
        self.assertGreaterEqual(len(table.rows), 80)
        self.none(wrong, len(table.rows))
        self.assertEqual(sorted(os.listdir(self.folder.name)), before, "the program left files beside those that it read")

    def test_crops(self):
        """A part of a raster is that part, to the pixel."""
        sides = (130, 111)
        array = values("f4", *sides)
        two = numpy.stack([array, values("f4", *sides, 2)])
        names = [(self.tiff("tiles.tif", array, "TILED=YES", "BLOCKXSIZE=32", "BLOCKYSIZE=32", "COMPRESS=DEFLATE", "PREDICTOR=3"), array),
                 (self.tiff("pixel.tif", two, "INTERLEAVE=PIXEL", "COMPRESS=LZW") + ":2", two[1]), (self.save("c.npy", array), array),
                 (self.save("f.npy", numpy.asfortranarray(array.astype(">f4"))), array), (self.tiff("e.dat", array, driver="ENVI"), array),
                 (netcdf(self.at("n.nc"), {"vv": (array[::-1], {})}), array)]
        places = [(0, 0, 130, 111), (0, 0, 1, 1), (129, 110, 1, 1), (31, 33, 34, 31), (0, 64, 130, 32), (77, 0, 5, 111)]
        cases = [(name, whole, spot) for name, whole in names for spot in places]
        calls = [("read", name, "--crop", ",".join(map(str, spot)), "--out", self.at(f"crop{index}.npy")) for index,
                 (name, _, spot) in enumerate(cases)]
        self.all_done(calls)
        for index, (name, whole, (row, col, rows, cols)) in enumerate(cases):
            self.same(numpy.load(self.at(f"crop{index}.npy")), whole[row:row + rows, col:col + cols], (os.path.basename(name), row, col, rows, cols))

    def test_names(self):
        """Colons, spaces and letters of other languages in names; a file of exactly the name comes first."""
        one, two = numpy.stack([values("f4", 20, 30, 1), values("f4", 20, 30, 2)]), values("f4", 20, 30, 3)
        self.tiff("a.tif", one)
        shutil.copy(self.tiff("b.tif", two), self.at("a.tif:2"))
        self.same(self.read("a.tif:1"), one[0])
        self.same(self.read("a.tif:2"), two)
        os.mkdir(self.at("dir:1"))
        shutil.copy(self.at("b.tif"), self.at("dir:1/mér um.TIF"))
        self.same(self.read("dir:1/mér um.TIF"), two)
        self.same(self.read("dir:1/mér um.TIF:1"), two)
        shutil.copy(self.at("b.tif"), self.at("no ending"))
        self.same(self.read(self.at("no ending")), two)
        shutil.copy(self.at("b.tif"), self.at("misnamed.png"))
        self.same(self.read("misnamed.png"), two)
        self.refused((64, 74), ["a.tif"], "read", "a.tif:3")
        self.refused((64, 74), ["a.tif"], "read", "a.tif:0")
        self.refused(74, ["nowhere.tif"], "read", self.at("nowhere.tif"))
        self.refused(74, [], "read", self.at("dir:1"))


class Planted(Case):
    """The comparison sees a planted fault."""

    def test_faults(self):
        array = values("f8", 40, 40)
        self.assertIsNone(differences(array.copy(), array))
        for row, col in ((0, 0), (17, 3), (39, 39)):
            bent = array.copy()
            bent[row, col] = numpy.nextafter(bent[row, col], numpy.inf)
            self.assertIn(f"row {row}, column {col}", differences(bent, array))
        self.assertIsNotNone(differences(numpy.ascontiguousarray(array.T), array))
        self.assertIsNotNone(differences(array[::-1].copy(), array))
        self.assertIsNotNone(differences(numpy.asfortranarray(array), array))
        self.assertIsNotNone(differences(array[:, :39].copy(), array))
        self.assertIsNotNone(differences(array.astype("f4"), array))
        self.assertIsNotNone(differences(numpy.array([[0.0]]), numpy.array([[-0.0]])))
        self.assertIsNotNone(differences(numpy.array([[0.0]]), numpy.array([[numpy.nan]])))
        self.assertIsNone(differences(numpy.array([[-numpy.nan]]), numpy.array([[numpy.nan]])))

    def test_program(self):
        """What the program reads differs from a file with one bit changed."""
        array = values("f4", 40, 40)
        found = self.read(self.tiff("a.tif", array))
        self.same(found, array)
        bent = array.copy()
        bent.view("u4")[20, 30] ^= 1
        self.assertIn("1 of 1600 pixels, first at row 20, column 30", differences(found, bent))
        self.assertIsNotNone(differences(found, array.T))
