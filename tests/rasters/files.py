"""Makers of rasters, what GDAL reads of them, and the case that the tests of rasters share."""
import concurrent.futures
import os
import pathlib
import re
import struct
import subprocess
import sys
import tempfile
import unittest
import zlib

import netCDF4
import numpy
from osgeo import gdal, osr

PROGRAM = os.path.abspath(sys.argv.pop(1))
gdal.UseExceptions()
gdal.PushErrorHandler("CPLQuietErrorHandler")

TYPES = {"u1": gdal.GDT_Byte, "i1": gdal.GDT_Byte, "u2": gdal.GDT_UInt16, "i2": gdal.GDT_Int16, "u4": gdal.GDT_UInt32, "i4": gdal.GDT_Int32,
         "u8": gdal.GDT_UInt64, "i8": gdal.GDT_Int64, "f4": gdal.GDT_Float32, "f8": gdal.GDT_Float64, "c8": gdal.GDT_CFloat32,
         "c16": gdal.GDT_CFloat64}
HUNG = []
FLOATS = [-0.0, 0.0, -1000.0, 1000.0, 0.1, -0.1, 1 / 3, 1.0, -40.0]


# Values

def values(kind, rows, cols, seed=1, top=None):
    """Random numbers of a type with the awkward ones among them; integers below `top` where it is given; every one held by f64."""
    kind, source = numpy.dtype(kind), numpy.random.default_rng([rows, cols, seed])
    if kind.kind == "f":
        array = source.uniform(-45, 15, (rows, cols)).astype(kind)
        tiny, small = numpy.finfo(kind).smallest_subnormal, numpy.finfo(kind).smallest_normal
        near = numpy.nextafter(kind.type(1000), kind.type(0))
        awkward = FLOATS + [tiny, -tiny, small, -small, tiny * 12345, near, -near, kind.type(0.1) + kind.type(0.2)]
    elif kind.kind == "b":
        return source.uniform(size=(rows, cols)) < 0.5
    else:
        low, high = (0, top - 1) if top else (numpy.iinfo(kind).min, numpy.iinfo(kind).max)
        array = source.integers(low, high, (rows, cols), dtype=kind, endpoint=True)
        awkward = [low, high, 0, 1, high // 2, high // 2 + 1]
        if kind.itemsize == 8:
            array = (array.astype("f8") * 0.25).astype(kind)
            awkward = [low, 2**62, 0, 1, 2**53, 2**53 - 1, 2**53 + 2, (high + 1) // 2, high + 1 - 2**11]
            awkward[-1:] = [2**64 - 2**11] if kind.kind == "u" else [2**63 - 2**10, -2**53, -1]
    places = source.choice(rows * cols, min(len(awkward), rows * cols // 2), replace=False)
    array.reshape(-1)[places] = numpy.array(awkward, dtype=kind)[: len(places)]
    return array


def decibels(rows, cols, seed=1, kind="f4"):
    """Quiet decibels, such as every command takes."""
    return numpy.random.default_rng([rows, cols, seed, 7]).uniform(-25, 0, (rows, cols)).astype(kind)


def marks_of(rows, cols, seed=1, kind="u1"):
    return (numpy.random.default_rng([rows, cols, seed, 9]).uniform(size=(rows, cols)) < 0.8).astype(kind)


def differences(found, expected):
    """What differs, in words, or nothing: type, shape and every bit; NaN is NaN."""
    if found.dtype != numpy.dtype("<f8") or not found.flags.c_contiguous:
        return f"type {found.dtype.str}, C order {found.flags.c_contiguous}"
    expected = numpy.ascontiguousarray(expected, dtype="<f8")
    if found.shape != expected.shape:
        return f"shape {found.shape}, expected {expected.shape}"
    wrong = (found.view("u8") != expected.view("u8")) & ~(numpy.isnan(found) & numpy.isnan(expected))
    if wrong.any():
        row, col = numpy.argwhere(wrong)[0]
        return f"{wrong.sum()} of {wrong.size} pixels, first at row {row}, column {col}: {found[row, col]!r}, expected {expected[row, col]!r}"
    return None


# Files

def raster(path, bands, *options, driver="GTiff", nodata=None, change=None, kind=None):
    """Writes bands through a GDAL driver that can create; `change` may add to the open dataset."""
    bands = numpy.asarray(bands)
    bands = bands[None] if bands.ndim == 2 else bands
    kind = TYPES[bands.dtype.str[1:]] if kind is None else kind
    file = gdal.GetDriverByName(driver).Create(path, bands.shape[2], bands.shape[1], bands.shape[0], kind, list(options))
    if nodata is not None:
        for band in range(len(bands)):
            file.GetRasterBand(band + 1).SetNoDataValue(nodata)
    if change:
        change(file)
    for band, array in enumerate(bands, 1):
        file.GetRasterBand(band).WriteArray(array.view("u1") if array.dtype == numpy.int8 else array)
    file.FlushCache()
    file = None
    return path


def copied(path, array, driver, *options, nodata=None, change=None):
    """Writes one band through a driver that only copies."""
    memory = gdal.GetDriverByName("MEM").Create("", array.shape[1], array.shape[0], 1, TYPES[array.dtype.str[1:]])
    memory.GetRasterBand(1).WriteArray(array)
    if nodata is not None:
        memory.GetRasterBand(1).SetNoDataValue(nodata)
    if change:
        change(memory)
    file = gdal.GetDriverByName(driver).CreateCopy(path, memory, options=list(options))
    file.FlushCache()
    file = memory = None
    return path


def crs(code):
    reference = osr.SpatialReference()
    reference.ImportFromEPSG(code)
    reference.SetAxisMappingStrategy(osr.OAMS_TRADITIONAL_GIS_ORDER)
    return reference


def utm(file):
    file.SetGeoTransform((500000.0, 10.0, 0.0, 5200000.0, 0.0, -10.0))
    file.SetSpatialRef(crs(32632))


def gdal_read(name, band=1):
    """What GDAL's own binding reads, widened by NumPy."""
    file = gdal.Open(name)
    with numpy.errstate(invalid="ignore"):
        return file.GetRasterBand(band).ReadAsArray().astype("f8")


def gdal_marks(name, band=1):
    file = gdal.Open(name)
    found = file.GetRasterBand(band)
    return ((found.GetMaskBand().ReadAsArray() != 0) & ~numpy.isnan(found.ReadAsArray().astype("f8"))).astype("u1")


def chunk(kind, body):
    return struct.pack(">I", len(body)) + kind + body + struct.pack(">I", zlib.crc32(kind + body))


def png(path, width, height, depth, data, before=(), after=(), interlace=0, colour=0):
    """A PNG by hand: header, chunks, the compressed rows, chunks."""
    parts = [b"\x89PNG\r\n\x1a\n", chunk(b"IHDR", struct.pack(">IIBBBBB", width, height, depth, colour, 0, 0, interlace))]
    parts += [chunk(*one) for one in before] + [chunk(b"IDAT", data)] + [chunk(*one) for one in after] + [chunk(b"IEND", b"")]
    pathlib.Path(path).write_bytes(b"".join(parts))
    return path


def packed(array, depth):
    """The rows of a grey PNG of 1, 2, 4, 8 or 16 bits, each after a filter byte 0."""
    if depth == 16:
        return b"".join(b"\0" + row.astype(">u2").tobytes() for row in array)
    bits = numpy.unpackbits(array.astype("u1")[:, :, None], axis=2)[:, :, 8 - depth:]
    return b"".join(b"\0" + numpy.packbits(row.reshape(-1)).tobytes() for row in bits)


def interlaced(array):
    """The seven passes of an interlaced 8-bit PNG."""
    passes = ((0, 0, 8, 8), (0, 4, 8, 8), (4, 0, 8, 4), (0, 2, 4, 4), (2, 0, 4, 2), (0, 1, 2, 2), (1, 0, 2, 1))
    return b"".join(packed(array[row::down, col::right], 8) for row, col, down, right in passes)


def raw_tiff(path, tags, data=b"", order="<"):
    """A TIFF by hand: `tags` maps a tag to (type, values); `data` stands at byte 8."""
    letters = {1: "B", 2: "B", 3: "H", 4: "I", 7: "B", 11: "f", 12: "d", 16: "Q"}
    body, entries = bytearray(data), b""
    body += b"\0" * (len(body) % 2)
    for tag in sorted(tags):
        kind, numbers = tags[tag]
        field = struct.pack(f"{order}{len(numbers)}{letters[kind]}", *numbers)
        if len(field) > 4:
            field, where = struct.pack(order + "I", 8 + len(body)), field
            body += where + b"\0" * (len(where) % 2)
        entries += struct.pack(order + "HHI", tag, kind, len(numbers)) + field.ljust(4, b"\0")
    head = (b"II" if order == "<" else b"MM") + struct.pack(order + "HI", 42, 8 + len(body))
    pathlib.Path(path).write_bytes(head + body + struct.pack(order + "H", len(tags)) + entries + b"\0" * 4)
    return path


def strips(array, compression=1, height=None, order="<"):
    """Tags and data of a striped f4 TIFF; compression 1 (none) or 8 (deflate)."""
    rows, cols = array.shape
    height = height or rows
    parts = [array[row:row + height].astype(order + "f4").tobytes() for row in range(0, rows, height)]
    parts = [zlib.compress(part) for part in parts] if compression == 8 else parts
    offsets = [8 + sum(map(len, parts[:index])) for index in range(len(parts))]
    tags = {256: (4, [cols]), 257: (4, [rows]), 258: (3, [32]), 259: (3, [compression]), 262: (3, [1]), 273: (4, offsets), 277: (3, [1]),
            278: (4, [height]), 279: (4, [len(part) for part in parts]), 339: (3, [3])}
    return tags, b"".join(parts)


def float_predicted(path, array, order):
    """A deflated f4 TIFF with the floating point predictor, which differences the bytes of a row, highest bytes first, in either byte order."""
    planes = [row.astype(">f4").view("u1").reshape(-1, 4).T.reshape(-1).astype("i2") for row in array]
    data = zlib.compress(b"".join(numpy.diff(row, prepend=0).astype("u1").tobytes() for row in planes))
    tags, _ = strips(array, 1, None, order)
    return raw_tiff(path, {**tags, 259: (3, [8]), 279: (4, [len(data)]), 317: (3, [3])}, data, order)


def zeros(count):
    """A zlib stream of so many zeros (whole millions), made without inflating it."""
    maker = zlib.compressobj(9)
    head = maker.compress(b"") + maker.flush(zlib.Z_FULL_FLUSH)
    head = head or b"\x78\xda"
    piece_maker = zlib.compressobj(9, zlib.DEFLATED, -15)
    piece = piece_maker.compress(bytes(1000000)) + piece_maker.flush(zlib.Z_FULL_FLUSH)
    return head + piece * (count // 1000000) + b"\x03\x00" + struct.pack(">I", (count % 65521) << 16 | 1)


def npy(path, array, version=None):
    with open(path, "wb") as file:
        numpy.lib.format.write_array(file, array, version=version)
    return path


def npy_header(path, shape, kind="<f8", data=b"", size=None):
    """A .npy whose header says what it likes."""
    text = f"{{'descr': '{kind}', 'fortran_order': False, 'shape': {shape}, }}".encode().ljust(117) + b"\n"
    with open(path, "wb") as file:
        file.write(b"\x93NUMPY\x01\x00" + struct.pack("<H", len(text)) + text + data)
        if size:
            file.truncate(10 + len(text) + size)
    return path


def netcdf(path, variables, kind="NETCDF4", **attributes):
    """A NetCDF of two dimensions; `variables` maps a name to (array, attributes)."""
    with netCDF4.Dataset(path, "w", format=kind) as file:
        rows, cols = next(iter(variables.values()))[0].shape
        file.createDimension("y", rows)
        file.createDimension("x", cols)
        for name, (array, words) in variables.items():
            fill = words.get("_FillValue")
            made = file.createVariable(name, array.dtype, ("y", "x"), fill_value=fill)
            made.setncatts({key: word for key, word in words.items() if key != "_FillValue"})
            made.set_auto_maskandscale(False)
            made[:] = array
    return path


class Case(unittest.TestCase):
    def setUp(self):
        self.folder = tempfile.TemporaryDirectory()
        self.addCleanup(self.folder.cleanup)

    def at(self, name):
        return os.path.join(self.folder.name, name)

    def save(self, name, array):
        numpy.save(self.at(name), array)
        return self.at(name)

    def tiff(self, name, bands, *options, **more):
        return raster(self.at(name), bands, *options, **more)

    def run_program(self, *words):
        if len(HUNG) > 2:
            self.fail(f"the program hangs: {HUNG}")
        try:
            return subprocess.run([PROGRAM, *map(str, words)], capture_output=True, text=True, cwd=self.folder.name, timeout=60)
        except subprocess.TimeoutExpired:
            HUNG.append(words)
            return subprocess.CompletedProcess(words, -9, "", "no end within 20 seconds")

    def together(self, calls):
        """The results of many calls, two at a time."""
        with concurrent.futures.ThreadPoolExecutor(2) as pool:
            return list(pool.map(lambda words: self.run_program(*words), calls))

    def done(self, *words):
        result = self.run_program(*words)
        self.assertEqual(result.returncode, 0, (words, result.stderr))
        return result

    def all_done(self, calls):
        results = self.together(calls)
        for words, result in zip(calls, results):
            self.assertEqual(result.returncode, 0, (words, result.stderr))
        return results

    def read(self, name, *words):
        """The decibels that the program reads."""
        self.done("read", name, *words, "--out", self.at("read.npy"))
        return numpy.load(self.at("read.npy"))

    def same(self, found, expected, label=""):
        text = differences(found, expected)
        self.assertIsNone(text, f"{label}: {text}")

    def same_as_gdal(self, name, *words, source=None, band=1):
        self.same(self.read(name, *words), gdal_read(source or name, band), name)

    def none(self, wrong, count):
        """Nothing is wrong; else the first faults in words."""
        if wrong:
            self.fail(f"{len(wrong)} faults in {count} cases:\n" + "\n".join(text.replace(self.folder.name, ".")[:400] for text in wrong[:40]))

    def judge(self, result, status, patterns, words):
        text = f"{words}: status {result.returncode}, {result.stderr!r}"
        self.assertIn(result.returncode, status if isinstance(status, tuple) else (status,), text)
        self.assertNotIn("panicked", result.stderr, text)
        self.assertTrue(result.stderr.strip(), text)
        for pattern in patterns:
            self.assertRegex(result.stderr, re.compile(pattern, re.IGNORECASE), text)
        return result.stderr

    def refused(self, status, patterns, *words, out="kept.npy"):
        """Ends so, says so, and leaves an earlier file and the folder as they were."""
        return self.all_refused([(status, patterns, words)], out)[0]

    def all_refused(self, cases, out="kept.npy"):
        """Many refusals: (status, patterns, words) each."""
        calls, kept = [], []
        for index, (_, _, words) in enumerate(cases):
            kept.append(pathlib.Path(self.at(f"{index}-{out}")))
            kept[-1].write_bytes(b"an earlier file")
            calls.append(words if words[0] in ("stats", "window") else (*words, "--out", kept[-1]))
        before = sorted(os.listdir(self.folder.name))
        results = self.together(calls)
        texts, wrong = [], []
        for (status, patterns, words), result in zip(cases, results):
            try:
                texts.append(self.judge(result, status, patterns, words))
            except AssertionError as error:
                wrong.append(str(error))
        wrong += [f"an earlier file was written over: {cases[index][2]}" for index, file in enumerate(kept) if file.read_bytes() != b"an earlier file"]
        wrong += [f"a file was made or taken away: {name}" for name in set(before) ^ set(os.listdir(self.folder.name))]
        self.none(wrong, len(cases))
        return texts

    def right_or_damaged(self, cases):
        """Many files that may be damaged: (label, raster name, expected); 74, or 0 with exactly the right values."""
        calls = [("read", name, "--out", self.at(f"maybe{index}.npy")) for index, (_, name, _) in enumerate(cases)]
        wrong, refusals = [], 0
        for index, ((label, _, expected), result) in enumerate(zip(cases, self.together(calls))):
            made = self.at(f"maybe{index}.npy")
            if result.returncode == 0:
                text = differences(numpy.load(made), expected)
                if text:
                    wrong.append(f"{label}: status 0 with wrong pixels: {text}")
            else:
                refusals += 1
                if result.returncode != 74 or "panicked" in result.stderr or os.path.exists(made):
                    wrong.append(f"{label}: status {result.returncode}, {result.stderr!r}")
        self.none(wrong, len(cases))
        return refusals


def place(row, col):
    """Patterns of a message that names a row and a column."""
    return [rf"row\D{{0,4}}{row}\b.{{0,20}}\bcol\D{{0,8}}{col}\b|\b{row}\W{{1,3}}{col}\b"]


def shapes(*pairs):
    """Patterns of a message that names shapes."""
    return [rf"(?<!\d){rows}\D{{1,12}}{cols}(?!\d)" for rows, cols in pairs]
