"""The deck viewer's page in a real browser: values read back, views, gamma, windows, patches, keyboard.
Usage: viewer.py PATH-OF-QUICKLOOK [FOLDER-FOR-SCREENSHOTS]"""
import base64
import io
import json
import os
import pathlib
import subprocess
import sys
import tempfile
import time
import unittest

import numpy
from PIL import Image
from osgeo import gdal, osr
from selenium import webdriver
from selenium.webdriver.chrome.options import Options
from selenium.webdriver.chrome.service import Service
from selenium.webdriver.common.action_chains import ActionChains
from selenium.webdriver.common.by import By
from selenium.webdriver.common.keys import Keys

PROGRAM = os.path.abspath(sys.argv.pop(1))
SHOTS = sys.argv.pop(1) if len(sys.argv) > 1 else None
ROWS, COLS = 96, 128


def browser(width, height):
    options = Options()
    for word in ("--headless=new", "--no-sandbox", "--disable-gpu", "--disable-dev-shm-usage", f"--window-size={width},{height}"):
        options.add_argument(word)
    options.add_experimental_option("prefs", {"download.default_directory": FOLDER})
    options.set_capability("goog:loggingPrefs", {"browser": "ALL"})
    return webdriver.Chrome(service=Service("/usr/bin/chromedriver"), options=options)


def run(*words):
    subprocess.run([PROGRAM, *words], check=True, cwd=FOLDER)


def setUpModule():
    global FOLDER, HOLDER, DB, MARKS, GREYS, RGB, STATS
    HOLDER = tempfile.TemporaryDirectory()
    FOLDER = HOLDER.name
    source = numpy.random.default_rng(11)
    DB, MARKS = [], []
    for band in (1, 2):
        db = source.normal(-14 - 3 * band, 3, (ROWS, COLS))
        marks = (source.uniform(size=(ROWS, COLS)) < 0.93).astype(numpy.uint8)
        db[marks == 0] = numpy.where(source.uniform(size=(marks == 0).sum()) < 0.5, numpy.nan, 1e6)
        numpy.save(f"{FOLDER}/db{band}.npy", db)
        numpy.save(f"{FOLDER}/marks{band}.npy", marks)
        DB.append(db)
        MARKS.append(marks)
    bands = ["db1.npy", "marks1.npy", "db2.npy", "marks2.npy"]
    run("picture", *bands, "--strategy", "robust", "--out", "rgb.npy", "--grey1", "grey1.npy", "--grey2", "grey2.npy")
    run("view", *bands, "--strategy", "robust", "--title", "Site <7> & \"more\"", "--out", "page.html")
    run("view", "db1.npy", "marks1.npy", "--strategy", "robust", "--out", "one.html")
    GREYS = [numpy.load(f"{FOLDER}/grey{band}.npy") for band in (1, 2)]
    RGB = numpy.load(f"{FOLDER}/rgb.npy")
    STATS = [
        json.loads(subprocess.run([PROGRAM, "stats", "--json", f"db{b}.npy", f"marks{b}.npy"], cwd=FOLDER, capture_output=True, text=True, check=True).stdout)
        for b in (1, 2)
    ]


def tearDownModule():
    HOLDER.cleanup()


def geotiff(name, place):
    """Both bands as a GeoTIFF with nodata, put on the ground by `place`."""
    made = gdal.GetDriverByName("GTiff").Create(f"{FOLDER}/{name}", COLS, ROWS, 2, gdal.GDT_Float64, ["TILED=YES", "COMPRESS=DEFLATE"])
    place(made)
    for band in (1, 2):
        made.GetRasterBand(band).WriteArray(numpy.where(MARKS[band - 1] == 1, DB[band - 1], -9999.0))
        made.GetRasterBand(band).SetNoDataValue(-9999.0)


def reference(code):
    made = osr.SpatialReference()
    made.ImportFromEPSG(code)
    made.SetAxisMappingStrategy(osr.OAMS_TRADITIONAL_GIS_ORDER)
    return made


class Page(unittest.TestCase):
    def open(self, name="page.html", width=1366, height=768):
        self.driver = browser(width, height)
        self.addCleanup(self.driver.quit)
        self.driver.get(f"file://{FOLDER}/{name}")
        self.wait("document.documentElement.dataset.complete")

    def wait(self, test, seconds=60):
        end = time.monotonic() + seconds
        while time.monotonic() < end:
            if self.driver.execute_script(f"return Boolean({test})"):
                return
            time.sleep(0.05)
        self.fail(f"never: {test}")

    def text(self, id_):
        """Read at once: an element may be written anew as soon as more of the scene is there."""
        return self.driver.execute_script("return document.getElementById(arguments[0]).innerText.trim()", id_)

    def press(self, *keys):
        ActionChains(self.driver).send_keys(*keys).perform()

    def place(self, row, col):
        """Where a pixel stands, from the middle of the canvas, in CSS pixels."""
        return self.driver.execute_script(
            """const s = Quicklook.state, c = document.getElementById("screen"), box = c.getBoundingClientRect(), k = box.width / c.width;
               return [(s.left + (arguments[1] + 0.5) * s.scale) * k - box.width / 2, (s.top + (arguments[0] + 0.5) * s.scale) * k - box.height / 2];""",
            row, col)

    def point_at(self, row, col):
        x, y = self.place(row, col)
        screen = self.driver.find_element(By.ID, "screen")
        ActionChains(self.driver).move_to_element_with_offset(screen, round(x), round(y)).perform()

    def readout(self):
        """What a reader sees, once the decibels are there."""
        self.wait("!document.getElementById('readout').textContent.includes('…')")
        return self.driver.execute_script(
            "return Object.fromEntries([...document.querySelectorAll('#readout dt')].map((dt) => [dt.innerText.trim(), dt.nextElementSibling.innerText.trim()]))")

    def expected(self, row, col):
        lines = {"Row": str(row), "Column": str(col), "Red green blue": " ".join(map(str, RGB[row, col]))}
        for band in (1, 2):
            lines[f"Grey {band}"] = str(GREYS[band - 1][row, col])
        return lines

    def assert_read(self, row, col):
        found = self.readout()
        for name, value in self.expected(row, col).items():
            self.assertEqual(found[name], value, name)
        for band in (1, 2):
            shown = found[f"Decibel {band}"]
            value = DB[band - 1][row, col]
            if MARKS[band - 1][row, col]:
                self.assertEqual(float(shown), value)
            else:
                self.assertTrue(shown.startswith("invalid"), shown)

    def test_pointer_reads_the_engines_bytes(self):
        self.open()
        self.assertEqual(self.driver.title, 'Site <7> & "more"')
        for row, col in ((0, 0), (1, 7), (50, 64), (95, 127), (33, 3)):
            self.point_at(row, col)
            self.assert_read(row, col)
        self.assertEqual(self.driver.get_log("browser"), [])

    def test_every_byte_travels(self):
        self.open()
        for band in (1, 2):
            self.driver.execute_async_script("const done = arguments[1]; Quicklook.decibels(arguments[0], 0).then(done)", band)
        found = self.driver.execute_script(
            """const out = []; for (let r = 0; r < 96; r++) for (let c = 0; c < 128; c++) { const v = Quicklook.values(r, c);
               out.push([v.grey1, v.grey2, v.mark1, v.mark2, ...v.rgb, Number.isFinite(v.db1) ? v.db1 : null, Number.isFinite(v.db2) ? v.db2 : null]); } return out;""")
        for i, pixel in enumerate(found):
            row, col = divmod(i, COLS)
            self.assertEqual(pixel[:7], [*(int(g[row, col]) for g in GREYS), *(int(m[row, col]) for m in MARKS), *map(int, RGB[row, col])])
            for value, db in zip(pixel[7:], DB):
                self.assertTrue(value == db[row, col] or (value is None and not numpy.isfinite(db[row, col])))

    def test_views_and_gamma_leave_the_values(self):
        self.open()
        self.point_at(40, 40)
        before = self.readout()
        shown = self.driver.execute_script("return document.getElementById('screen').toDataURL()")
        for key, view in (("2", "grey1"), ("3", "grey2"), ("1", "rgb")):
            self.press(key)
            self.assertEqual(self.driver.execute_script("return Quicklook.state.view"), view)
            self.assertEqual(self.readout(), before)
        for _ in range(6):
            self.press("]")
        self.assertAlmostEqual(self.driver.execute_script("return Quicklook.state.gamma"), 1.3)
        self.assertNotEqual(self.driver.execute_script("return document.getElementById('screen').toDataURL()"), shown)
        self.assertEqual(self.readout(), before)
        self.assertIn("Screen only", self.text("gamma-note"))
        self.assert_read(40, 40)

    def figures(self, band, row0, row1, col0, col1):
        greys = GREYS[band - 1][row0 : row1 + 1, col0 : col1 + 1]
        valid = greys[MARKS[band - 1][row0 : row1 + 1, col0 : col1 + 1] == 1]
        return [str(len(valid)), f"{valid.mean():.2f}", str(valid.min()), str(valid.max())]

    def test_patches(self):
        self.open()
        screen = self.driver.find_element(By.ID, "screen")
        self.driver.find_element(By.ID, "patch").click()
        (x0, y0), (x1, y1) = self.place(10, 20), self.place(29, 49)
        ActionChains(self.driver).move_to_element_with_offset(screen, round(x0), round(y0)).click_and_hold().move_to_element_with_offset(screen, round(x1), round(y1)).release().perform()
        # the second one by keyboard: from the cursor, eight rows down and twelve columns right
        self.point_at(60, 70)
        self.press("p", *[Keys.ARROW_DOWN] * 8, *[Keys.ARROW_RIGHT] * 12, "p")
        rows = [[cell.text for cell in tr.find_elements(By.TAG_NAME, "td")] for tr in self.driver.find_elements(By.CSS_SELECTOR, "#patches tbody tr")]
        self.assertEqual(len(rows), 4)
        for row, (band, area) in zip(rows, ((1, (10, 29, 20, 49)), (2, (10, 29, 20, 49)), (1, (60, 68, 70, 82)), (2, (60, 68, 70, 82)))):
            self.assertEqual(row[1:4], [f"{area[0]}–{area[1]}", f"{area[2]}–{area[3]}", str(band)])
            self.assertEqual(row[4:8], self.figures(band, *area))
        if SHOTS:
            self.driver.save_screenshot(f"{SHOTS}/patches.png")

    def test_statistics_and_window(self):
        self.open()
        rows = [[cell.text for cell in tr.find_elements(By.TAG_NAME, "td")] for tr in self.driver.find_elements(By.CSS_SELECTOR, "#statistics tr")][1:]
        self.assertEqual(len(rows), 20)
        for name, *values in rows:
            self.assertEqual([float(v) for v in values], [float(s[name.replace(" ", "_").replace("column", "col")]) for s in STATS], name)

    def drawn(self, canvas):
        """The pixels of a canvas."""
        picture = self.driver.execute_script("return arguments[0].toDataURL()", canvas)
        return numpy.asarray(Image.open(io.BytesIO(base64.b64decode(picture.partition(",")[2]))).convert("RGBA")).astype(int)

    def test_curve_and_ticks(self):
        """The curve has a column for every eight of NumPy's bins, and the ticks stand in the bins that hold p05 and p95."""
        self.open()
        canvases = self.driver.find_elements(By.CSS_SELECTOR, "#histograms canvas")
        lines = [line.text for line in self.driver.find_elements(By.CSS_SELECTOR, "#histograms li")]
        self.assertEqual((len(canvases), len(lines)), (2, 4))
        for k, (db, marks, stats) in enumerate(zip(DB, MARKS, STATS)):
            valid = db[marks == 1]
            bins = numpy.minimum(numpy.trunc((valid - valid.min()) * (1 / (valid.max() - valid.min())) * 4096), 4095).astype(int)
            counts = numpy.bincount(bins, minlength=4096)
            pixels = self.drawn(canvases[k])
            bars = counts.reshape(512, 8).sum(axis=1)
            heights = numpy.where(bars > 0, numpy.maximum(1, 100 * numpy.sqrt(bars / bars.max())), 0)
            drawn = (pixels[:100, :, 3] > 0).sum(axis=0)
            window_columns = set(numpy.flatnonzero(drawn == 100))
            plain = [c for c in range(512) if c not in window_columns]
            self.assertLessEqual(numpy.abs(drawn[plain] - numpy.maximum(0, heights[plain] - 10)).max(), 1)
            for name, line in zip(("p05", "p95"), lines[2 * k : 2 * k + 2]):
                bin_ = stats[f"{name}_bin"]
                share = 100 * counts[:bin_].sum() / valid.size
                self.assertEqual(line, f"{name}: {stats[name]:.2f} dB, bin {bin_} of 4096, {share:.2f} % of valid pixels in the bins below")
                self.assertIn(line, canvases[k].get_attribute("aria-label"))
                column = min(510, max(0, round((bin_ + 0.5) / 8) - 1))
                self.assertTrue((pixels[112:120, column : column + 2, 3] == 255).all(), "a tick below its bin")
                self.assertEqual(int((pixels[112, :, 3] == 255).sum()), 4)
                word = self.driver.find_elements(By.CSS_SELECTOR, ".ticks span")[2 * k + (name == "p95")]
                self.assertEqual(word.text, name)
                left, share_ = canvases[k].rect["x"], (bin_ + 0.5) / 4096
                self.assertAlmostEqual(word.rect["x"] + share_ * word.rect["width"], left + share_ * canvases[k].rect["width"], delta=2)

    def test_copol(self):
        """The head names the co-pol band; its window is drawn and told from p02 on, the other's from p05, and its greys are the picture's."""
        bands = ["db1.npy", "marks1.npy", "db2.npy", "marks2.npy", "--strategy", "tamed"]
        for words, copol in (((), 1), (("--copol", "1"), 1), (("--copol", "2"), 2)):
            run("view", *bands, *words, "--out", "tamed.html")
            run("picture", *bands, *words, "--out", "c.npy", "--grey1", "g1.npy", "--grey2", "g2.npy")
            self.open("tamed.html")
            self.assertEqual(self.text("about"), f"{ROWS} rows of {COLS}, Tamed, mode Default, co-pol band {copol}")
            names, words_ = ([cell.text for cell in self.driver.find_elements(By.CSS_SELECTOR, f"#origin {kind}")] for kind in ("dt", "dd"))
            origin = dict(zip(names, words_))
            self.assertEqual(origin["copol"], f"band {copol}")
            captions = [p.text for p in self.driver.find_elements(By.CSS_SELECTOR, "#histograms p")]
            for k, canvas in enumerate(self.driver.find_elements(By.CSS_SELECTOR, "#histograms canvas")):
                stats = STATS[k]
                low, high = stats["p02" if k + 1 == copol else "p05"], stats["p99"]
                self.assertGreater(stats["p05"] - stats["p02"], 0.1)
                self.assertIn(f"window from {low:.2f} to {high:.2f} dB, gamma 1.0", captions[k])
                self.assertEqual([float(word) for word in origin[f"window{k + 1}"].split()], [low, high, high - low, 1.0])
                # the uprights alone reach the top
                places = [numpy.floor(512 * (end - stats["min"]) / (stats["max"] - stats["min"]) + 0.5) for end in (low, high)]
                columns = [int(at) + side for at in places for side in (-1, 0)]
                self.assertEqual(numpy.flatnonzero(self.drawn(canvas)[0, :, 3]).tolist(), columns, (copol, k + 1))
            greys = [numpy.load(f"{FOLDER}/g{band}.npy") for band in (1, 2)]
            for row, col in ((0, 0), (31, 64), (95, 127), (40, 3), (77, 90)):
                at = self.driver.execute_script("return Quicklook.values(arguments[0], arguments[1])", row, col)
                self.assertEqual([at["grey1"], at["grey2"]], [int(grey[row, col]) for grey in greys], (copol, row, col))

    def test_flat_and_blank(self):
        """A flat band has all in the first column and two names that do not cover each other; a blank one has no curve and no tick."""
        numpy.save(f"{FOLDER}/flat.npy", numpy.full((8, 9), 7.5))
        numpy.save(f"{FOLDER}/all.npy", numpy.ones((8, 9), numpy.uint8))
        numpy.save(f"{FOLDER}/none.npy", numpy.zeros((8, 9), numpy.uint8))
        run("view", "flat.npy", "all.npy", "flat.npy", "none.npy", "--out", "flat.html")
        self.open("flat.html")
        flat, blank = (self.drawn(canvas) for canvas in self.driver.find_elements(By.CSS_SELECTOR, "#histograms canvas"))
        self.assertEqual((numpy.flatnonzero((flat[:100, :, 3] > 0).any(axis=0)) < 2).all(), True)
        self.assertEqual(numpy.flatnonzero(flat[115, :, 3]).tolist(), [0, 1])
        self.assertFalse(blank[:, :, 3].any())
        lines = [line.text for line in self.driver.find_elements(By.CSS_SELECTOR, "#histograms li")]
        self.assertEqual(lines, [f"{name}: 7.50 dB, bin 0 of 4096, 0.00 % of valid pixels in the bins below" for name in ("p05", "p95")])
        first, second = (word.rect for word in self.driver.find_elements(By.CSS_SELECTOR, ".ticks span"))
        self.assertLessEqual(first["y"] + first["height"], second["y"] + 4)
        rows = [[cell.text for cell in tr.find_elements(By.TAG_NAME, "td")] for tr in self.driver.find_elements(By.CSS_SELECTOR, "#strongest tbody tr")]
        self.assertEqual([row[:4] for row in rows], [["1", "0", "0", "7.5"], ["2", "–", "–", "no valid pixel"]])
        self.press("b", "b", "e")
        self.assertEqual([self.text("at-row"), self.text("at-column")], ["0", "0"])
        self.assertIn("Band 2: no valid pixel", [p.text for p in self.driver.find_elements(By.CSS_SELECTOR, "#histograms p")])

    def test_gamma_of_each_window(self):
        """Little contrast and a wide scene under Standard, painted with gamma 1.1 and 0.9: told below each curve with the window's ends, greys as written."""
        run("view", "db1.npy", "marks1.npy", "--strategy", "default", "--out", "default.html")
        numpy.save(f"{FOLDER}/narrow.npy", numpy.linspace(0.0, 14.0, 72).reshape(8, 9))
        numpy.save(f"{FOLDER}/wide.npy", numpy.linspace(-30.0, 30.0, 72).reshape(8, 9))
        numpy.save(f"{FOLDER}/all.npy", numpy.ones((8, 9), numpy.uint8))
        bands = ["narrow.npy", "all.npy", "wide.npy", "all.npy", "--strategy", "standard"]
        run("picture", *bands, "--out", "gammas.npy", "--grey1", "narrow-grey.npy", "--grey2", "wide-grey.npy")
        run("view", *bands, "--out", "gammas.html")
        self.open("gammas.html")
        captions = [p.text for p in self.driver.find_elements(By.CSS_SELECTOR, "#histograms p")]
        self.assertEqual([caption.rsplit(", ", 1)[1] for caption in captions], ["gamma 1.1", "gamma 0.9"])
        for k, name in enumerate(("narrow", "wide")):
            words = subprocess.run([PROGRAM, "window", f"{name}.npy", "all.npy", "--strategy", "standard"], cwd=FOLDER, capture_output=True, text=True, check=True).stdout.split()
            low, high, _, gamma = map(float, words[1::2])
            self.assertTrue(captions[k].endswith(f"window from {low:.2f} to {high:.2f} dB, gamma {gamma:.1f}"), captions[k])
        self.point_at(4, 4)
        told = self.readout()
        self.assertEqual([told["Grey 1"], told["Grey 2"]], [str(numpy.load(f"{FOLDER}/{name}-grey.npy")[4, 4]) for name in ("narrow", "wide")])
        self.driver.get(f"file://{FOLDER}/default.html")
        self.wait("document.documentElement.dataset.complete")
        self.assertTrue(self.driver.find_element(By.CSS_SELECTOR, "#histograms p").text.endswith(", gamma 1.0"))

    def test_one_band_has_one_curve(self):
        self.open("one.html")
        self.assertEqual(self.text("about"), f"{ROWS} rows of {COLS}, Robust")
        self.assertEqual([len(self.driver.find_elements(By.CSS_SELECTOR, f"#histograms {name}")) for name in ("canvas", "li")], [1, 2])

    def test_strongest_echo(self):
        """Told, ringed, shown and hidden: the first of NumPy's greatest valid decibels in each band."""
        self.open()
        rows = [[cell.text for cell in tr.find_elements(By.TAG_NAME, "td")] for tr in self.driver.find_elements(By.CSS_SELECTOR, "#strongest tbody tr")]
        spots = []
        for k, (db, marks) in enumerate(zip(DB, MARKS)):
            spot = numpy.unravel_index(numpy.argmax(numpy.where(marks == 1, db, -numpy.inf)), db.shape)
            spots.append(tuple(int(at) for at in spot))
            self.assertEqual(rows[k][:3], [str(k + 1), *map(str, spots[k])])
            self.assertEqual(float(rows[k][3]), db[spot])
        screen = self.driver.find_element(By.ID, "screen")
        ringed = self.drawn(screen)
        self.press("e")
        self.assertEqual(self.driver.find_element(By.ID, "echoes").get_attribute("aria-pressed"), "false")
        changed = numpy.argwhere((self.drawn(screen) != ringed).any(axis=2))
        left, top, scale = self.driver.execute_script("const s = Quicklook.state; return [s.left, s.top, s.scale]")
        for (row, col), radius, colour, other in zip(spots, (12, 17), ((0, 162, 255), (255, 176, 0)), ((255, 176, 0), (0, 162, 255))):
            apart = numpy.hypot(changed[:, 0] - top - (row + 0.5) * scale, changed[:, 1] - left - (col + 0.5) * scale)
            here = ringed[tuple(changed[abs(apart - radius) < 1.5].T)][:, :3]
            own, others = ((here == wanted).all(axis=1).sum() for wanted in (colour, other))
            self.assertGreater(own, 40)
            self.assertGreater(own, 3 * others)
        far = numpy.min([numpy.hypot(changed[:, 0] - top - (row + 0.5) * scale, changed[:, 1] - left - (col + 0.5) * scale) for row, col in spots], axis=0)
        self.assertLess(far.max(), 60)
        corner = "const s = Quicklook.state; return [s.left, s.top]"
        whole = self.driver.execute_script(corner)
        self.press("b")
        self.assertEqual(self.driver.execute_script(corner), whole)
        self.press(*"+" * 14, "b")
        for row, col in (spots[1], spots[0], spots[1]):
            self.assertEqual([self.text("at-row"), self.text("at-column")], [str(row), str(col)])
            left, top, scale, width, height = self.driver.execute_script(
                "const s = Quicklook.state, c = document.getElementById('screen'); return [s.left, s.top, s.scale, c.width, c.height]")
            self.assertAlmostEqual(left + (col + 0.5) * scale, width / 2)
            self.assertAlmostEqual(top + (row + 0.5) * scale, height / 2)
            self.press("b")
        for view, spot in (("3", spots[1]), ("2", spots[0])):
            self.press(view, "b", "b")
            self.assertEqual([self.text("at-row"), self.text("at-column")], [str(at) for at in spot])
        if SHOTS:
            self.press("1", "0", "e")
            self.driver.save_screenshot(f"{SHOTS}/echoes.png")

    def test_strongest_echo_of_blank_bands_and_crops(self):
        """A blank band names no place and has no ring; a crop names the file's row and column too; two echoes at one pixel are both told."""
        numpy.save(f"{FOLDER}/none.npy", numpy.zeros((ROWS, COLS), numpy.uint8))
        run("view", "db1.npy", "none.npy", "db1.npy", "marks1.npy", "--strategy", "robust", "--out", "blank.html")
        self.open("blank.html")
        table = lambda: [[cell.text for cell in tr.find_elements(By.TAG_NAME, "td")] for tr in self.driver.find_elements(By.CSS_SELECTOR, "#strongest tbody tr")]
        row, col = (int(at) for at in numpy.unravel_index(numpy.argmax(numpy.where(MARKS[0] == 1, DB[0], -numpy.inf)), DB[0].shape))
        self.assertEqual(table()[0][:4], ["1", "–", "–", "no valid pixel"])
        self.assertEqual(table()[1][:3], ["2", str(row), str(col)])
        self.press("b", "b")
        self.assertEqual([self.text("at-row"), self.text("at-column")], [str(row), str(col)])
        self.press("2", "b")
        screen = self.driver.find_element(By.ID, "screen")
        plain = self.drawn(screen)
        self.press("e")
        self.assertTrue((self.drawn(screen) == plain).all())
        run("view", "db1.npy", "marks1.npy", "db1.npy", "marks1.npy", "--strategy", "robust", "--crop", f"{row - 1},{col - 2},3,4", "--out", "cropped.html")
        self.open("cropped.html")
        for band in (0, 1):
            self.assertEqual([" ".join(cell.split()) for cell in table()[band][:3]], [str(band + 1), f"1 ({row} in the file)", f"2 ({col} in the file)"])
        self.assertLessEqual(self.driver.execute_script("const a = document.querySelector('aside'); return a.scrollWidth - a.clientWidth"), 0)
        if SHOTS:
            self.driver.save_screenshot(f"{SHOTS}/coinciding.png")

    def test_header_of_any_height(self):
        """The picture keeps its shape, and the pointer its row, when the lines above the stage grow."""
        self.open()
        for words in (1, 60, 200, 1):
            self.driver.execute_script("document.getElementById('about').textContent = 'word '.repeat(arguments[0])", words)
            self.wait("(() => { const c = document.getElementById('screen'), b = c.getBoundingClientRect(); return c.width === Math.round(b.width * devicePixelRatio) && c.height === Math.round(b.height * devicePixelRatio); })()", 5)
            self.point_at(50, 64)
            self.assert_read(50, 64)

    def test_marks_zoom_save_and_night(self):
        self.open()
        picture = lambda: self.driver.execute_script("return document.getElementById('screen').toDataURL()")
        plain = picture()
        self.press("m")
        self.assertNotEqual(picture(), plain)
        self.press("m", "+", "+")
        self.assertNotEqual(picture(), plain)
        self.press("0")
        self.assertEqual(picture(), plain)
        night = self.driver.execute_script("return document.documentElement.classList.contains('night')")
        self.press("t")
        self.assertNotEqual(self.driver.execute_script("return document.documentElement.classList.contains('night')"), night)
        self.press("s")
        shown = base64.b64decode(picture().partition(",")[2])
        pixels = [numpy.asarray(Image.open(io.BytesIO(bytes_)).convert("RGBA")) for bytes_ in (self.saved("Site-7-more-rgb.png"), shown)]
        numpy.testing.assert_array_equal(*pixels)

    def saved(self, name, seconds=60):
        """The bytes of a download, once it is whole."""
        end = time.monotonic() + seconds
        while time.monotonic() < end:
            found = pathlib.Path(FOLDER, name)
            if found.exists() and found.stat().st_size and not list(pathlib.Path(FOLDER).glob("*.crdownload")):
                return found.read_bytes()
            time.sleep(0.1)
        self.fail(f"{name} was never saved: {sorted(os.listdir(FOLDER))}")

    def assert_places(self, name, words, code, to_ground, places):
        """X, Y, longitude and latitude under the pointer, against GDAL's own transformation of the pixel's middle, to a hundredth of a pixel."""
        run("view", name, "--marks", "auto", *words, "--out", "ground.html")
        self.open("ground.html")
        to_lonlat = osr.CoordinateTransformation(reference(code), reference(4326))

        def sphere(longitude, latitude):
            longitude, latitude = numpy.radians([longitude, latitude])
            return numpy.array([numpy.cos(latitude) * numpy.cos(longitude), numpy.cos(latitude) * numpy.sin(longitude), numpy.sin(latitude)])

        for row, col in places:
            self.driver.execute_script("Quicklook.moveTo(arguments[0], arguments[1])", row, col)
            found = {key: float(value) for key, value in self.readout().items() if key in ("X", "Y", "Longitude", "Latitude")}
            exact = self.driver.execute_script("return Quicklook.placeOnGround(arguments[0], arguments[1])", row, col)
            here, next_ = (numpy.array(to_ground(col + at, row + at)) for at in (0.5, 1.5))
            pixel = numpy.hypot(*(next_ - here))
            self.assertLess(numpy.hypot(*(here - [exact["x"], exact["y"]])), 0.01 * pixel, (row, col))
            self.assertLess(numpy.hypot(found["X"] - exact["x"], found["Y"] - exact["y"]), 0.01 * pixel, (row, col))
            here, next_ = (sphere(*to_lonlat.TransformPoint(*place)[:2]) for place in (here, next_))
            pixel = numpy.linalg.norm(next_ - here)
            self.assertLess(numpy.linalg.norm(here - sphere(exact["longitude"], exact["latitude"])), 0.01 * pixel, (row, col))
            self.assertLess(numpy.linalg.norm(here - sphere(found["Longitude"], found["Latitude"])), 0.01 * pixel + 2e-8, (row, col))
        return self.readout()

    def test_coordinates(self):
        six = (500000.5, 10.0, 0.25, 6000000.25, 0.5, -12.5)

        def utm(made):
            made.SetGeoTransform(six)
            made.SetSpatialRef(reference(32632))

        def ground(col, row):
            return six[0] + col * six[1] + row * six[2], six[3] + col * six[4] + row * six[5]

        geotiff("utm.tif", utm)
        places = ((0, 0), (0, COLS - 1), (ROWS - 1, 0), (ROWS - 1, COLS - 1), (50, 64), (33, 7))
        self.assert_places("utm.tif", [], 32632, ground, places)
        self.assertIn("EPSG:32632", self.text("origin"))
        cropped = self.assert_places("utm.tif", ["--crop", "20,30,40,50"], 32632, lambda col, row: ground(col + 30, row + 20), ((0, 0), (39, 49), (11, 22)))
        self.assertEqual(cropped["In the file"], "31, 52")

    def test_coordinates_at_the_pole_and_the_date_line(self):
        """Between two nodes of the page's grid there is neither a pole nor a date line."""
        for name, code, six in (("pole.tif", 3413, (-2560.0, 40.0, 0.0, 1920.0, 0.0, -40.0)), ("line.tif", 32660, (812000.0, 500.0, 0.0, 7000000.0, 0.0, -500.0)),
                                ("far.tif", 4326, (179.98, 0.0005, 0.0, 60.0, 0.0, -0.0005))):
            def place(made, six=six, code=code):
                made.SetGeoTransform(six)
                made.SetSpatialRef(reference(code))

            geotiff(name, place)
            self.assert_places(name, [], code, lambda col, row, six=six: (six[0] + col * six[1], six[3] + row * six[5]),
                               [(row, col) for row in (0, 40, 47, 48, 49, 95) for col in (0, 39, 40, 63, 64, 65, 100, 127)])

    def test_control_points_over_the_date_line(self):
        def turned(col, row):
            longitude = 179.95 + 0.001 * col + 0.0002 * row
            return longitude - 360.0 if longitude > 180 else longitude, 60.0 - 0.0005 * row

        def points(made):
            list_ = [gdal.GCP(*turned(col, row), 0.0, col, row) for row in range(0, ROWS + 1, 16) for col in range(0, COLS + 1, 16)]
            made.SetGCPs(list_, reference(4326))

        geotiff("turned.tif", points)
        run("view", "turned.tif", "--marks", "auto", "--out", "ground.html")
        self.open("ground.html")
        for row, col in ((0, 0), (50, 40), (50, 41), (95, 127)):
            found = self.driver.execute_script("return Quicklook.placeOnGround(arguments[0], arguments[1])", row, col)
            longitude, latitude = turned(col + 0.5, row + 0.5)
            self.assertLess(abs((found["longitude"] - longitude + 180) % 360 - 180), 1e-5, (row, col))
            self.assertLess(abs(found["latitude"] - latitude), 1e-5, (row, col))

    def test_coordinates_by_control_points(self):
        def bent(col, row):
            return 8.0 + 0.001 * col + 0.0002 * row + 1e-7 * col * row, 55.0 - 0.0006 * row + 0.0001 * col - 2e-7 * row * row

        def points(made):
            list_ = [gdal.GCP(*bent(col, row), 0.0, col, row) for row in range(0, ROWS + 1, 16) for col in range(0, COLS + 1, 16)]
            made.SetGCPs(list_, reference(4326))

        geotiff("gcps.tif", points)
        opened = gdal.Open(f"{FOLDER}/gcps.tif")
        spline = gdal.Transformer(opened, None, ["METHOD=GCP_TPS"])

        def ground(col, row):
            done, place = spline.TransformPoint(False, col, row)
            self.assertTrue(done)
            return place[0], place[1]

        self.assert_places("gcps.tif", [], 4326, ground, ((0, 0), (95, 127), (50, 64), (3, 99)))

    def test_no_coordinates(self):
        self.open()
        self.point_at(5, 5)
        self.assertNotIn("Longitude", self.readout())

    def test_one_band(self):
        self.open("one.html")
        self.point_at(5, 9)
        found = self.readout()
        self.assertEqual(found["Grey 1"], str(GREYS[0][5, 9]))
        self.assertNotIn("Grey 2", found)
        self.assertFalse(self.driver.find_element(By.CSS_SELECTOR, "[data-view=rgb]").is_displayed())

    def test_phone(self):
        self.open(width=390, height=844)
        self.driver.execute_script("Quicklook.moveTo(50, 64)")
        self.assert_read(50, 64)
        wide = self.driver.execute_script("return document.documentElement.scrollWidth - document.documentElement.clientWidth")
        self.assertLessEqual(wide, 0)
        button = self.driver.find_element(By.CSS_SELECTOR, "#strongest button")
        self.driver.execute_script("arguments[0].scrollIntoView({ block: 'start' })", button)
        self.assertLess(self.driver.execute_script("return document.getElementById('screen').getBoundingClientRect().top"), -1)
        button.click()
        box = self.driver.execute_script("const b = document.getElementById('screen').getBoundingClientRect(); return [b.top, b.bottom, innerHeight]")
        self.assertTrue(box[0] >= -1 and box[1] <= box[2] + 1, box)
        if SHOTS:
            self.driver.save_screenshot(f"{SHOTS}/phone.png")

    def test_no_pixels(self):
        """A page of a raster without columns, or without rows, is complete and says nothing wrong."""
        for rows, cols in ((5, 0), (0, 5), (0, 0)):
            numpy.save(f"{FOLDER}/empty.npy", numpy.zeros((rows, cols)))
            numpy.save(f"{FOLDER}/empty-marks.npy", numpy.zeros((rows, cols), numpy.uint8))
            run("view", "empty.npy", "empty-marks.npy", "empty.npy", "empty-marks.npy", "--strategy", "robust", "--out", "empty.html")
            self.open("empty.html")
            self.press("b", "e", "2", "m")
            self.assertEqual([entry for entry in self.driver.get_log("browser") if entry["level"] == "SEVERE"], [])


if __name__ == "__main__":
    unittest.main(verbosity=1)
