"""The demo and what stands in its folder."""
import fcntl
import hashlib
import os
import subprocess
import time

from faults.common import PROGRAM, Case


class Demo(Case):
    def demo(self, *words):
        return ["demo", "d", "--side", "64", *words]

    def test_again(self):
        """Over an earlier demo of any side: only this one's files are there afterwards, and sha256sum finds its list right."""
        for side in (64, 64, 9, 100):
            self.done("demo", "d", "--side", str(side))
            names = set(os.listdir(self.folder / "d"))
            self.assertEqual(len(names), 15 if side == 9 else 18)
            subprocess.run(["sha256sum", "--check", "--quiet", ".quicklook-demo"], cwd=self.folder / "d", check=True)

    def test_what_it_did_not_make(self):
        self.done(*self.demo())
        for name in ("vv.npy", "notes.txt", "tamed-rgb.png"):
            path = self.folder / "d" / name
            earlier = path.read_bytes() if path.exists() else None
            path.write_bytes(b"mine")
            self.fails(64, name, *self.demo())
            path.write_bytes(earlier) if earlier else path.unlink()
        (self.folder / "d" / "sub").mkdir()
        self.fails(64, "sub", *self.demo())

    def test_a_scene_is_not_overwritten(self):
        (self.folder / "d").mkdir()
        self.done(*self.demo())
        for name in os.listdir(self.folder / "d"):
            (self.folder / "d" / name).unlink()
        (self.folder / "d" / "vv.npy").write_bytes(b"an earlier scene")
        self.fails(64, "vv.npy", *self.demo())
        (self.folder / "d" / "other.npy").write_bytes(b"another")
        self.done(*self.demo("--force"))
        self.assertNotEqual((self.folder / "d" / "vv.npy").read_bytes(), b"an earlier scene")
        self.assertEqual((self.folder / "d" / "other.npy").read_bytes(), b"another")
        self.fails(64, "other.npy", *self.demo())

    def test_links_and_lists_of_others(self):
        """What stands elsewhere is neither replaced nor removed, whatever a list says; nobody is waited for."""
        (self.folder / "other").mkdir()
        kept = self.folder / "other" / "keep.txt"
        kept.write_bytes(b"kept")
        digest = hashlib.sha256(b"kept").hexdigest()
        path = self.folder / "d" / ".quicklook-demo"
        for line in (f"{digest}  ../other/keep.txt", f"{digest}  {kept}", "nonsense", f"{digest}  keep.txt"):
            self.done(*self.demo())
            path.write_text(path.read_text() + line + "\n")
            self.fails(64, "", *self.demo())
            self.done(*self.demo("--force"))
        vv = self.folder / "d" / "vv.npy"
        (self.folder / "other" / "vv.npy").write_bytes(vv.read_bytes())
        vv.unlink()
        vv.symlink_to("../other/vv.npy")
        self.fails(64, "vv.npy", *self.demo())
        vv.unlink()
        for put in (os.mkfifo, lambda where: os.symlink("/dev/zero", where), lambda where: os.symlink("../other/keep.txt", where), os.mkdir):
            for where in (vv, path):
                earlier = where.read_bytes() if where.exists() else None
                where.unlink(missing_ok=True)
                put(where)
                self.fails(64, "the demo did not make", *self.demo(), timeout=30)
                where.rmdir() if where.is_dir() else where.unlink()
                if earlier is not None:
                    where.write_bytes(earlier)
        self.done(*self.demo())
        self.assertEqual(kept.read_bytes(), b"kept")

    def test_put_there_meanwhile(self):
        """What the user puts into the folder while the demo works is not the demo's."""
        for earlier in (None, "9"):
            subprocess.run(["rm", "-rf", self.folder / "d"], check=True)
            if earlier:
                self.done("demo", "d", "--side", earlier)
            process = self.slowly(self.demo(), "fsync:17", 1)
            (self.folder / "d" / "clahe-rgb.png").write_bytes(b"mine")
            status, told = self.ends(process)
            self.assertEqual(status, 64, told)
            self.assertEqual((self.folder / "d" / "clahe-rgb.png").read_bytes(), b"mine")

    def test_two_at_once(self):
        """Whichever ends last, the next finds its own files."""
        for _ in range(6):
            running = [subprocess.Popen([PROGRAM, "demo", "d", "--side", side], cwd=self.folder, stdout=subprocess.DEVNULL, stderr=subprocess.DEVNULL) for side in ("9", "64", "65")]
            for process in running:
                self.assertIn(process.wait(timeout=60), (0, 64, 74))
            self.done(*self.demo())

    def test_another_ends_first(self):
        """Files that another demo names while this one waits for the folder are in this one's list, or go."""
        self.done("demo", "other", "--side", "64")
        process = self.slowly(["demo", "d", "--side", "9"], "fsync:14", 1)
        folder = os.open(self.folder / "d", os.O_RDONLY)
        fcntl.flock(folder, fcntl.LOCK_EX)
        time.sleep(4)
        for name in os.listdir(self.folder / "other"):
            os.replace(self.folder / "other" / name, self.folder / "d" / name)
        os.close(folder)
        status, told = self.ends(process)
        self.assertEqual(status, 0, told)
        self.assertEqual(len(os.listdir(self.folder / "d")), 15)
        self.done(*self.demo())

    def test_links_are_not_followed(self):
        """Not even by force."""
        self.done(*self.demo())
        vv = self.folder / "d" / "vv.npy"
        os.replace(vv, self.folder / "scene.npy")
        vv.symlink_to("../scene.npy")
        self.fails(64, "vv.npy", *self.demo("--force"))

    def test_killed_while_names_are_given(self):
        """Over an earlier demo or in a new folder: the next one finds its own files and goes on."""
        for earlier in (None, "64", "9"):
            for place in (1, 2, 9, 18):
                subprocess.run(["rm", "-rf", self.folder / "d"], check=True)
                if earlier:
                    self.done("demo", "d", "--side", earlier)
                killed = self.run_("demo", "d", "--side", "32", environment={"FAULT": f"exchange:{place}:0", "FAULT_KILL": "1"})
                self.assertEqual(killed.returncode, -9)
                self.done("demo", "d", "--side", "32")
                self.assertEqual(len(os.listdir(self.folder / "d")), 18)
                subprocess.run(["sha256sum", "--check", "--quiet", ".quicklook-demo"], cwd=self.folder / "d", check=True)

    def test_places(self):
        self.done("demo", "a/b/c", "--side", "32")
        (self.folder / "file").write_bytes(b"x")
        self.fails(74, "file", "demo", "file", "--side", "32")
        self.fails(74, "file/d", "demo", "file/d", "--side", "32")
        self.fails(64, "4096", "demo", "new", "--side", "5000")
        self.fails(74, "too long", "demo", "new/" + "n" * 300, "--side", "32")
        os.mkfifo(self.folder / "pipe")
        self.fails(74, "pipe", "demo", "pipe", "--side", "32")

    def test_nothing_is_left_of_a_failed_one(self):
        for fault, path in (("write", 3, "ENOSPC"), ""), (("fsync", 9, "EIO"), ""), (("exchange", 7, "EPERM"), ""), (("open", 5, "EMFILE"), ".part"):
            self.fails(74, "", "demo", "new/d", "--side", "32", fault=fault, environment={"FAULT_PATH": path})
        self.done(*self.demo())
        for place in (1, 8, 18):
            self.fails(74, "", *self.demo(), fault=("exchange", place, "EPERM"))

    def test_the_same_bytes_each_time(self):
        self.done(*self.demo())
        first = {name: hashlib.sha256((self.folder / "d" / name).read_bytes()).hexdigest() for name in os.listdir(self.folder / "d")}
        self.done(*self.demo())
        self.assertEqual(first, {name: hashlib.sha256((self.folder / "d" / name).read_bytes()).hexdigest() for name in os.listdir(self.folder / "d")})
