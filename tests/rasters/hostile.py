"""Sides before pixels: headers that claim too much."""
import json
import os
import pathlib
import struct
import subprocess
import sys
import zlib

import numpy

from rasters.files import Case, PROGRAM, npy_header, png, raw_tiff, zeros


MEASURE = """
import json, resource, subprocess, sys
child = subprocess.Popen(sys.argv[1:], stdout=subprocess.PIPE, stderr=subprocess.PIPE)
try:
    out, err = child.communicate(timeout=60)
except subprocess.TimeoutExpired:
    child.kill()
    out, err = child.communicate()
used = resource.getrusage(resource.RUSAGE_CHILDREN)
print(json.dumps([child.returncode, err.decode(errors="replace"), used.ru_utime + used.ru_stime, used.ru_maxrss]))
"""


class Hostile(Case):
    """Headers that promise far more than the file holds: a quick refusal within little memory."""

    def measured(self, *words):
        """Status and message; the program and its children have used little processor time and memory."""
        found = subprocess.run([sys.executable, "-c", MEASURE, PROGRAM, *map(str, words)], capture_output=True, text=True, cwd=self.folder.name,
                               timeout=90)
        status, text, seconds, peak = json.loads(found.stdout)
        self.assertLess(seconds, 10, words)
        self.assertLess(peak, 700 * 1000, (words, text))
        self.assertNotIn("panicked", text)
        return status, text

    def hostile(self, name, commands=(("read",),), statuses=(1, 2, 74)):
        for words in commands:
            status, text = self.measured(words[0], name, *words[1:], "--out", self.at("out.npy"))
            self.assertIn(status, statuses, (os.path.basename(name), words, text))
            self.assertFalse(os.path.exists(self.at("out.npy")), (os.path.basename(name), words))

    def test_tiffs(self):
        base = {258: (3, [8]), 259: (3, [8]), 262: (3, [1]), 277: (3, [1])}
        floats = {**base, 258: (3, [32]), 339: (3, [3])}
        for index, (more, body) in enumerate(((base, zlib.compress(bytes(64))), (floats, zlib.compress(bytes(256))), (base, zeros(1000000000)),
                                              ({**floats, 259: (3, [1])}, bytes(256)))):
            tags = {**more, 256: (4, [8]), 257: (4, [8]), 322: (4, [65536]), 323: (4, [65536]), 324: (4, [8]), 325: (4, [len(body)])}
            self.hostile(raw_tiff(self.at(f"tile{index}.tif"), tags, body))
        for index, more in enumerate((base, floats)):
            tags = {**more, 256: (4, [60000]), 257: (4, [60000]), 273: (4, [8]), 278: (4, [60000]), 279: (4, [17000])}
            name = raw_tiff(self.at(f"large{index}.tif"), tags, zlib.compress(bytes(10**7))[:17000].ljust(17000, b"\0"))
            self.hostile(name, [("read",), ("read", "--crop", "0,0,8,8"), ("stretch",), ("marks",)])
        tags = {**floats, 256: (4, [2**31 - 1]), 257: (4, [2**31 - 1]), 273: (4, [8]), 278: (4, [1]), 279: (4, [100])}
        self.hostile(raw_tiff(self.at("endless.tif"), tags, bytes(100)))
        tags = {**base, 256: (4, [4096]), 257: (4, [4096]), 273: (4, [8]), 278: (4, [4096]), 279: (4, [100])}
        self.hostile(raw_tiff(self.at("hollow.tif"), tags, zlib.compress(bytes(1000)).ljust(100, b"\0")), statuses=(74,))
        tags = {**floats, 256: (4, [8]), 257: (4, [8]), 277: (3, [65535]), 258: (3, [32] * 65535), 339: (3, [3] * 65535), 273: (4, [8]),
                278: (4, [8]), 279: (4, [256])}
        self.hostile(raw_tiff(self.at("bands.tif"), tags, bytes(256)), statuses=(64, 74))

    def test_pictures(self):
        name = png(self.at("large.png"), 2**31 - 1, 2**31 - 1, 8, zlib.compress(bytes(70)))
        self.assertLess(os.path.getsize(name), 140)
        self.hostile(name, [("read",), ("stretch",), ("pad",), ("read", "--crop", "0,0,8,8")])
        self.hostile(png(self.at("wide.png"), 2**31 - 1, 1, 16, zlib.compress(bytes(70))), [("read",), ("stretch",), ("read", "--crop", "0,0,1,8")])
        self.hostile(png(self.at("hollow.png"), 4096, 4096, 16, zlib.compress(bytes(70))), [("read",), ("stretch",)], (74,))

    def test_a_picture_that_swells(self):
        """Eight rows of zeros, and then a gigabyte of them."""
        name = png(self.at("bomb.png"), 8, 8, 8, zeros(1000000000))
        status, text = self.measured("read", name, "--out", self.at("x.npy"))
        self.assertIn(status, (0, 74), text)
        if status == 0:
            self.same(numpy.load(self.at("x.npy")), numpy.zeros((8, 8)))
        text_bomb = png(self.at("text.png"), 8, 8, 8, zlib.compress(bytes(72)), [(b"zTXt", b"Comment\0\0" + zeros(1000000000))])
        status, text = self.measured("read", text_bomb, "--out", self.at("y.npy"))
        self.assertIn(status, (0, 74), text)

    def test_numpy(self):
        for index, (shape, kind) in enumerate(((f"({2**40}, {2**40})", "<f8"), (f"({2**63}, 2)", "<f8"), (f"({2**64}, {2**64})", "|u1"),
                                               ("(4096, 4096)", "<f8"),
                                               (f"(0, {2**62})", "<f8"), (f"({10**30}, 1)", "<f4"), (f"(1, {2**61})", "<f8"),
                                               (f"({2**32}, {2**32})", "|b1"))):
            self.hostile(npy_header(self.at(f"h{index}.npy"), shape, kind), [("read",)] if "(0," in shape else [("read",), ("marks",)])
        self.hostile(npy_header(self.at("hole.npy"), "(60000, 60000)", "|u1", size=3600000000), [("read",), ("stretch",)])
        with open(self.at("head.npy"), "wb") as file:
            file.write(b"\x93NUMPY\x02\x00" + struct.pack("<I", 2**32 - 1) + b"{'descr': '<f8'")
        self.hostile(self.at("head.npy"), statuses=(74,))

    def test_others(self):
        pathlib.Path(self.at("e.dat")).write_bytes(bytes(100))
        head = "ENVI\nsamples = {}\nlines = {}\nbands = 1\nheader offset = 0\nfile type = ENVI Standard\ndata type = 4\ninterleave = bsq\nbyte order = 0\n"
        for side in (2**31 - 1, 60000, 4096):
            pathlib.Path(self.at("e.hdr")).write_text(head.format(side, side))
            self.hostile(self.at("e.dat"))
        vrt = '<VRTDataset rasterXSize="{0}" rasterYSize="{0}"><VRTRasterBand dataType="Float32" band="1">{1}</VRTRasterBand></VRTDataset>'
        pathlib.Path(self.at("v.vrt")).write_text(vrt.format(2**31 - 1, ""))
        self.hostile(self.at("v.vrt"), statuses=(1, 74))
        source = "<SimpleSource><SourceFilename>{}</SourceFilename><SourceBand>1</SourceBand></SimpleSource>"
        pathlib.Path(self.at("self.vrt")).write_text(vrt.format(8, source.format(self.at("self.vrt"))))
        self.hostile(self.at("self.vrt"), statuses=(74,))
        pathlib.Path(self.at("gone.vrt")).write_text(vrt.format(8, source.format(self.at("nowhere.tif"))))
        self.hostile(self.at("gone.vrt"), statuses=(74,))
        pathlib.Path(self.at("a.asc")).write_text(f"ncols {10**9}\nnrows {10**9}\nxllcorner 0\nyllcorner 0\ncellsize 1\n1 2 3\n")
        self.hostile(self.at("a.asc"), statuses=(1, 74))
