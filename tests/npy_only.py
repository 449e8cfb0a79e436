"""The program built without GDAL: .npy in and out, PNG out, all else refused in words. Usage: npy_only.py PATH-OF-QUICKLOOK"""
import os
import subprocess
import sys
import tempfile
import unittest

import numpy
from PIL import Image

PROGRAM = os.path.abspath(sys.argv.pop(1))


class NpyOnly(unittest.TestCase):
    def setUp(self):
        folder = tempfile.TemporaryDirectory()
        self.addCleanup(folder.cleanup)
        self.folder = folder.name
        numpy.save(f"{self.folder}/db.npy", numpy.array([[0.0, 0.5]]))
        numpy.save(f"{self.folder}/marks.npy", numpy.ones((1, 2), numpy.uint8))

    def run_program(self, *words):
        result = subprocess.run([PROGRAM, *words], cwd=self.folder, capture_output=True, text=True)
        self.assertNotIn("panicked", result.stderr)
        return result.returncode, result.stderr

    def test_npy(self):
        self.assertEqual(self.run_program("grey", "db.npy", "marks.npy", "--depth", "16", "--out", "g.npy"), (0, ""))
        self.assertEqual(numpy.load(f"{self.folder}/g.npy").tolist(), [[0, 32759]])
        self.assertEqual(self.run_program("grey", "db.npy", "marks.npy", "--out", "g.png"), (0, ""))
        with Image.open(f"{self.folder}/g.png") as image:
            self.assertEqual(list(image.getdata()), [0, 255])

    def test_without_gdal(self):
        Image.fromarray(numpy.zeros((1, 2), numpy.float32)).save(f"{self.folder}/db.tif")
        for words in (("stats", "db.tif", "marks.npy"), ("grey", "db.npy", "marks.npy", "--out", "g.tif")):
            status, told = self.run_program(*words)
            self.assertEqual(status, 74)
            self.assertIn("without GDAL", told)
        self.assertEqual(sorted(os.listdir(self.folder)), ["db.npy", "db.tif", "marks.npy"])

    def test_it_is_not_linked(self):
        self.assertNotIn("gdal", subprocess.run(["ldd", PROGRAM], capture_output=True, text=True, check=True).stdout)


if __name__ == "__main__":
    unittest.main(verbosity=1)
