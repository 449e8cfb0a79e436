"""The program on damaged files, and with calls of the system that fail: thousands of mutated rasters, and faults at random places (faults/shim.c),
none of which may end the program by a signal, a panic, a hang, an unknown status or more memory than a scene may take, nor cost an earlier file or
leave a part file. Usage: fuzz.py PATH-OF-QUICKLOOK [SECONDS] [SEED]"""
import collections
import errno
import os
import random
import subprocess
import sys
import tempfile
import threading
import time

import numpy
from osgeo import gdal
from PIL import Image

PROGRAM = os.path.abspath(sys.argv[1])
SECONDS = float(sys.argv[2]) if len(sys.argv) > 2 else 40
SEED = int(sys.argv[3]) if len(sys.argv) > 3 else 1
STATUSES = {0, 1, 2, 3, 4, 5, 6, 64, 71, 74}
SHIM = tempfile.NamedTemporaryFile(suffix=".so")
# Calls that fail at random, and how far into a run they may.
FAULTS = {"open": 40, "write": 60, "read": 120, "pread": 12, "fsync": 3, "rename": 2, "link": 2, "fchmod": 1, "fchown": 1, "flock": 3, "getrandom": 2, "thread": 2, "spawn": 4,
          "pipe": 12}
EARLIER = b"an earlier file"
LONGEST = 30            # seconds of one run
MOST_MEMORY = 1_200_000 # kilobytes of the program or of GDAL's process, which may take 1 GiB beside its libraries

gdal.UseExceptions()


def raster(folder, name, driver, options=(), kind=gdal.GDT_Float32, bands=1, rows=40, cols=52):
    """A small raster of decibels by one of GDAL's drivers; the files that it consists of."""
    source = gdal.GetDriverByName("MEM").Create("", cols, rows, bands, kind)
    values = numpy.random.default_rng(5).uniform(-25, 100, (bands, rows, cols))
    for band in range(bands):
        source.GetRasterBand(band + 1).WriteArray(values[band])
        if driver == "GTiff":
            source.GetRasterBand(band + 1).SetNoDataValue(-99)
    made = gdal.GetDriverByName(driver).CreateCopy(os.path.join(folder, name), source, options=list(options))
    del made
    opened = gdal.Open(os.path.join(folder, name))
    files = [os.path.basename(file) for file in opened.GetFileList()]
    del opened
    return files


def seeds(folder):
    """Names of rasters, each with the files behind it and the words of a command that reads it."""
    made = []
    numpy.save(os.path.join(folder, "marks.npy"), numpy.ones((40, 52), numpy.uint8))
    decibels = numpy.random.default_rng(6).uniform(-25, 0, (40, 52))
    auto = ["stats", "{}", "--marks", "auto", "--as-decibels", "--scaling", "raw"]
    for name, array in {"f8.npy": decibels, "f4.npy": decibels.astype("f4"), "big.npy": numpy.asfortranarray(decibels.astype(">f8"))}.items():
        numpy.save(os.path.join(folder, name), array)
        made.append((name, [name], ["stats", "{}", "marks.npy"]))
    made.append(("marks.npy", ["marks.npy"], ["stats", "f8.npy", "{}"]))
    tiled = ["TILED=YES", "BLOCKXSIZE=16", "BLOCKYSIZE=32"]
    variants = {
        "none.tif": [], "tiled.tif": tiled, "deflate.tif": tiled + ["COMPRESS=DEFLATE", "PREDICTOR=3"], "lzw.tif": ["COMPRESS=LZW", "PREDICTOR=2"],
        "zstd.tif": tiled + ["COMPRESS=ZSTD"], "lerc.tif": ["COMPRESS=LERC"], "lzma.tif": ["COMPRESS=LZMA"], "packbits.tif": ["COMPRESS=PACKBITS"],
        "bigtiff.tif": tiled + ["BIGTIFF=YES"], "bigendian.tif": ["ENDIANNESS=BIG", "COMPRESS=DEFLATE", "PREDICTOR=2"],
    }
    for name, options in variants.items():
        made.append((name, raster(folder, name, "GTiff", options), auto))
    made.append(("cog.tif", raster(folder, "cog.tif", "COG", ["BLOCKSIZE=128"], rows=200, cols=300), auto))
    made.append(("two.tif", raster(folder, "two.tif", "GTiff", bands=2), ["picture", "{}", "--marks", "auto", "--out", "o.npy"]))
    for name, driver, options in (("envi.img", "ENVI", []), ("e.bil", "EHdr", []), ("hfa.img", "HFA", []), ("cdf3.nc", "netCDF", []),
                                  ("cdf4.nc", "netCDF", ["FORMAT=NC4", "COMPRESS=DEFLATE"]), ("grid.asc", "AAIGrid", [])):
        made.append((name, raster(folder, name, driver, options), auto))
    made.append(("j.jp2", raster(folder, "j.jp2", "JP2OpenJPEG", ["QUALITY=100", "REVERSIBLE=YES"], gdal.GDT_Byte), auto))
    for name, kind in (("g8.png", numpy.uint8), ("g16.png", numpy.uint16)):
        Image.fromarray((decibels * -5).astype(kind)).save(os.path.join(folder, name))
        made.append((name, [name], ["stretch", "{}", "--out", "o.npy"]))
    Image.fromarray(decibels.astype(numpy.float32)).save(os.path.join(folder, "pil.tif"))
    made.append(("pil.tif", ["pil.tif"], auto))
    return made


def mutated(dice, whole):
    """The bytes with a few of them changed, cut, doubled or taken out; the head more often than the rest."""
    bytes_ = bytearray(whole)
    for _ in range(dice.choice((1, 1, 1, 2, 3, 8))):
        if not bytes_:
            break
        reach = dice.choice((16, 64, 300, len(bytes_), len(bytes_)))
        at = dice.randrange(min(reach, len(bytes_)))
        if dice.random() < 0.15:
            at = len(bytes_) - 1 - at
        way = dice.random()
        if way < 0.35:
            bytes_[at] ^= 1 << dice.randrange(8)
        elif way < 0.6:
            bytes_[at] = dice.randrange(256)
        elif way < 0.75:
            value = dice.choice((0, 1, 0x7F, 0x80, 0xFF, 0xFFFF, 0x7FFFFFFF, 0xFFFFFFFF, 0x10000, 1 << 40, (1 << 64) - 1))
            width = dice.choice((2, 4, 8))
            bytes_[at:at + width] = (value & ((1 << (8 * width)) - 1)).to_bytes(width, dice.choice(("little", "big")))
        elif way < 0.85:
            del bytes_[at:]
        elif way < 0.93:
            del bytes_[at:at + dice.randrange(1, 9)]
        else:
            bytes_[at:at] = bytes_[at:at + dice.randrange(1, 65)]
    return bytes(bytes_)


def run(words, folder, fault=None):
    """Status, standard error, seconds and peak memory of one run."""
    begun = time.monotonic()
    environment = dict(os.environ, FAULT=fault, LD_PRELOAD=SHIM.name) if fault else None
    with tempfile.TemporaryFile() as told:
        process = subprocess.Popen([PROGRAM, *words], cwd=folder, stdin=subprocess.DEVNULL, stdout=subprocess.DEVNULL, stderr=told, env=environment)
        timer = threading.Timer(LONGEST, process.kill)
        timer.start()
        _, status, usage = os.wait4(process.pid, 0)
        timer.cancel()
        process.returncode = os.waitstatus_to_exitcode(status)
        told.seek(0)
        return process.returncode, told.read().decode(errors="replace"), time.monotonic() - begun, usage.ru_maxrss


def worker(number, made, folder, end, counts, bad):
    dice = random.Random(1000 * SEED + number)
    mine = os.path.join(folder, f"mine{number}")
    os.mkdir(mine)
    whole = {}
    for name in os.listdir(folder):
        path = os.path.join(folder, name)
        if os.path.isfile(path):
            with open(path, "rb") as file:
                whole[name] = file.read()
            with open(os.path.join(mine, name), "wb") as file:
                file.write(whole[name])
    while time.monotonic() < end:
        name, files, words = dice.choice(made)
        words = [word.format(name) for word in words]
        victim = dice.choice(files)
        # A damaged file, a fault, or both; to standard output or a file.
        way = dice.random()
        harmed = mutated(dice, whole[victim]) if way < 0.8 else whole[victim]
        call, reach = dice.choice(list(FAULTS.items()))
        # A call that is interrupted each time is tried for ever, by the C library too.
        error, for_ever = dice.choice(((errno.EIO, ""), (errno.EIO, "*"), (errno.ENOSPC, ""), (errno.ENOSPC, "*"), (errno.EPERM, ""), (errno.EINTR, "")))
        fault = f"{call}:{dice.randint(1, reach)}{for_ever}:{error}" if way > 0.6 else None
        out = next((word for word in words if word.startswith("o.")), None)
        if words[0] == "stats" and dice.random() < 0.5:
            out = dice.choice(("o.npy", "o.png", "o.tif", "o.html"))
            words = ["view" if out == "o.html" else "grey", *words[1:], "--out", out]
        with open(os.path.join(mine, victim), "wb") as file:
            file.write(harmed)
        if out:
            with open(os.path.join(mine, out), "wb") as file:
                file.write(EARLIER)
        before = set(os.listdir(mine))
        status, told, seconds, memory = run(words, mine, fault)
        counts[status] += 1
        lost = None
        if out and status:
            with open(os.path.join(mine, out), "rb") as file:
                lost = "the earlier file is lost" if file.read() != EARLIER else None
        more = set(os.listdir(mine)) - before - ({out + ".aux.xml"} if out and status == 0 else set())
        if status not in STATUSES or "panicked" in told or "internal error" in told or seconds > LONGEST or memory > MOST_MEMORY or lost or more:
            bad.append(f"{' '.join(words)} ({victim}, {fault}): status {status}, {seconds:.1f} s, {memory} KB, {lost}, left {sorted(more)}: {told[:300]}")
            keep = os.environ.get("FUZZ_KEEP")
            if keep:
                with open(os.path.join(keep, f"{number}-{len(bad)}-{victim}"), "wb") as file:
                    file.write(harmed)
        with open(os.path.join(mine, victim), "wb") as file:
            file.write(whole[victim])
        for name in set(os.listdir(mine)) - before:
            os.unlink(os.path.join(mine, name))


def main():
    shim = os.path.join(os.path.dirname(os.path.abspath(__file__)), "faults", "shim.c")
    subprocess.run(["gcc", "-shared", "-fPIC", "-O1", "-o", SHIM.name, shim, "-ldl"], check=True)
    with tempfile.TemporaryDirectory() as folder:
        made = seeds(folder)
        for name, _, words in made:
            status, told, _, _ = run([word.format(name) for word in words], folder)
            if status != 0:
                sys.exit(f"the unharmed {name} is not read: {status} {told}")
        counts, bad = collections.Counter(), []
        end = time.monotonic() + SECONDS
        threads = [threading.Thread(target=worker, args=(number, made, folder, end, counts, bad)) for number in range(os.cpu_count() or 2)]
        for thread in threads:
            thread.start()
        for thread in threads:
            thread.join()
    for line in bad[:20]:
        print(line)
    statuses = ", ".join(f"{status}: {count}" for status, count in sorted(counts.items()))
    print(f"{sum(counts.values())} runs on rasters of {len(made)} kinds, damaged or with failing calls; {len(bad)} ended badly; statuses {statuses}")
    sys.exit(1 if bad or not counts else 0)


main()
