"""A folder with a scene of two bands, commands that write each format, and runs of the program under a fault."""
import errno
import os
import pathlib
import shutil
import subprocess
import tempfile
import time
import unittest

import numpy
from osgeo import gdal, osr

gdal.UseExceptions()
PROGRAM = os.environ["QUICKLOOK_PROGRAM"]
SHIM = None
HERE = pathlib.Path(__file__).parent


def shim():
    """The compiled shim.c."""
    global SHIM
    if SHIM is None:
        SHIM = tempfile.NamedTemporaryFile(suffix=".so")
        subprocess.run(["gcc", "-shared", "-fPIC", "-O1", "-Wall", "-Wextra", "-Werror", "-o", SHIM.name, HERE / "shim.c", "-ldl"], check=True)
    return SHIM.name


# Each format with the outputs of one command that writes it.
FORMATS = {
    "npy": ["o.npy", "g1.npy", "g2.npy"],
    "png": ["o.png", "g1.png", "g2.png"],
    "world": ["o.png", "o.png.aux.xml", "o.pgw", "g1.png", "g1.png.aux.xml", "g1.pgw"],
    "tif": ["o.tif", "g1.tif", "g2.tif"],
    "cog": ["o.tif", "g1.tif"],
    "html": ["o.html"],
}
EARLIER = b"an earlier file"


class Case(unittest.TestCase):
    rows, cols = 40, 48

    def setUp(self):
        holder = tempfile.TemporaryDirectory()
        self.addCleanup(holder.cleanup)
        self.folder = pathlib.Path(holder.name)
        source = numpy.random.default_rng(5)
        made = gdal.GetDriverByName("GTiff").Create(str(self.folder / "scene.tif"), self.cols, self.rows, 2, gdal.GDT_Float32, ["COMPRESS=DEFLATE"])
        made.SetGeoTransform((500000.0, 10.0, 0.0, 6000000.0, 0.0, -10.0))
        reference = osr.SpatialReference()
        reference.ImportFromEPSG(32632)
        made.SetSpatialRef(reference)
        for band in (1, 2):
            db = source.normal(-12 - 3 * band, 3, (self.rows, self.cols)).astype("f4")
            marks = (source.uniform(size=db.shape) < 0.9).astype("u1")
            numpy.save(self.folder / f"db{band}.npy", db.astype("f8"))
            numpy.save(self.folder / f"marks{band}.npy", marks)
            made.GetRasterBand(band).WriteArray(numpy.where(marks == 1, db, -9999))
            made.GetRasterBand(band).SetNoDataValue(-9999)
        made = None
        self.inputs = sorted(os.listdir(self.folder))

    def words(self, form):
        """The command that writes a format."""
        outs = dict(zip(("--out", "--grey1", "--grey2"), [name for name in FORMATS[form] if name.endswith((".npy", ".png", ".tif", ".html"))]))
        named = [word for pair in outs.items() for word in pair]
        bands = ["db1.npy", "marks1.npy", "db2.npy", "marks2.npy"] if form in ("npy", "png") else ["scene.tif", "--marks", "auto"]
        more = {"world": ["--world"], "cog": ["--cog"]}.get(form, [])
        return ["view" if form == "html" else "picture", *bands, *named, *more]

    def run_(self, *words, fault=None, environment=None, **more):
        variables = dict(os.environ, **(environment or {}))
        if fault:
            function, number, error = fault
            variables.update(FAULT=f"{function}:{number}:{getattr(errno, error)}")
        if fault or any(name.startswith("FAULT") for name in variables):
            variables["LD_PRELOAD"] = shim()
        settings = dict(capture_output=True, cwd=self.folder, env=variables, timeout=120, stdin=subprocess.DEVNULL)
        settings.update(more)
        return subprocess.run([PROGRAM, *map(str, words)], **settings)

    def slowly(self, words, fault, seconds=8, path="", **more):
        """A run whose call `fault` takes its time, when it has come to it; of opens only those of paths that end with `path`."""
        mark = pathlib.Path(tempfile.mkdtemp()) / "mark"
        self.addCleanup(shutil.rmtree, mark.parent, ignore_errors=True)
        environment = dict(os.environ, LD_PRELOAD=shim(), FAULT=f"{fault}:0", FAULT_WAIT=str(seconds), FAULT_MARK=str(mark), FAULT_PATH=path)
        process = subprocess.Popen([PROGRAM, *words], cwd=self.folder, stdin=subprocess.DEVNULL, stdout=subprocess.DEVNULL, stderr=subprocess.PIPE, env=environment, **more)
        end = time.monotonic() + 60
        while not mark.exists() and process.poll() is None and time.monotonic() < end:
            time.sleep(0.005)
        self.assertTrue(mark.exists(), fault)
        return process

    def ends(self, process):
        """The status of a run, and what it told."""
        _, told = process.communicate(timeout=120)
        return process.returncode, told.decode(errors="replace")

    def done(self, *words, **more):
        result = self.run_(*words, **more)
        self.assertEqual(result.returncode, 0, (words, result.stderr))
        return result

    def fails(self, status, text, *words, **more):
        """The program ends with this status and says this; no file is made, changed or lost."""
        before = self.snapshot()
        result = self.run_(*words, **more)
        told = (result.stderr or b"").decode(errors="replace")
        self.assertEqual(result.returncode, status, (words, told))
        self.assertIn(text, told, words)
        self.assertNotIn("panicked", told)
        self.assertNotIn("internal error", told)
        self.assertEqual(self.snapshot(), before, words)
        return told

    def snapshot(self):
        """Every file of the folder by name, with its bytes, kind and rights."""
        found = {}
        for path in sorted(self.folder.rglob("*")):
            there = path.lstat()
            what = os.readlink(path) if path.is_symlink() else path.read_bytes() if path.is_file() else None
            found[str(path.relative_to(self.folder))] = (there.st_mode, there.st_uid, there.st_gid, what)
        return found

    def put_earlier(self, names):
        for name in names:
            (self.folder / name).write_bytes(EARLIER)

    def clear(self, names):
        for name in names:
            (self.folder / name).unlink(missing_ok=True)

    def bytes_of(self, names):
        return [(self.folder / name).read_bytes() if (self.folder / name).exists() else None for name in names]

    def left(self):
        """Part files."""
        return [name for name in os.listdir(self.folder) if name.startswith(".")]
