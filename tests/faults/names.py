"""The names of outputs: judged before any work, and what stands under them kept."""
import os
import pathlib
import stat
import subprocess
import unittest
import zipfile

from faults.common import EARLIER, PROGRAM, Case

SCENE = ["db1.npy", "marks1.npy", "db2.npy", "marks2.npy"]


class Names(Case):
    def picture(self, *words):
        return ["picture", *SCENE, *words]

    def test_two_outputs_of_one_name(self):
        (self.folder / "sub").mkdir()
        self.put_earlier(["a.png", "a.npy"])
        os.symlink("a.png", self.folder / "link.png")
        os.symlink("new.png", self.folder / "dangling.png")
        os.symlink(".", self.folder / "here")
        for one, two in (("a.png", "a.png"), ("a.png", "./a.png"), ("a.png", "sub/../a.png"), ("a.png", "link.png"), ("new.png", "dangling.png"),
                         ("new.png", "here/new.png"), ("a.png", str(self.folder / "a.png")), ("never.tif", "./never.tif")):
            for words in (("--out", one, "--grey1", two), ("--out", two, "--grey2", one), ("--out", "x.png", "--grey1", one, "--grey2", two)):
                self.fails(64, "one file", *self.picture(*words))
        self.fails(64, "one file", "read", "db1.npy", "marks1.npy", "--out", "a.npy", "--marks-out", "./a.npy")
        # The files beside two pictures too.
        self.fails(64, "one file", "picture", "scene.tif", "--marks", "auto", "--world", "--out", "a.png", "--grey1", "a.PNG")

    def test_one_output_that_cannot_be(self):
        """Nothing is written where one of several outputs cannot be."""
        self.put_earlier(["ok.png"])
        (self.folder / "folder.png").mkdir()
        (self.folder / "plain").write_bytes(b"")
        os.mkfifo(self.folder / "pipe.png")
        os.symlink("pipe.png", self.folder / "link.png")
        os.symlink("loop.png", self.folder / "loop.png")
        os.symlink("/dev/null", self.folder / "null.png")
        os.symlink("/dev/full", self.folder / "full.npy")
        for name, status in (("nowhere/x.png", 74), ("plain/x.png", 74), ("folder.png", 64), ("folder.png/", 64), ("pipe.png", 64), ("link.png", 64),
                             ("null.png", 64), ("full.npy", 64), ("loop.png", 74), ("..", 64), (".", 64), ("new.png/", 64), ("", 64), ("x" * 252 + ".png", 74)):
            for words in (("--out", "ok.png", "--grey1", name), ("--out", name, "--grey1", "ok.png")):
                self.fails(status, "", *self.picture(*words))
        self.fails(64, "folder.png", "view", "db1.npy", "marks1.npy", "--out", "folder.png")
        os.rename(self.folder / "folder.png", self.folder / "folder.html")
        self.fails(64, "folder.html", "view", "db1.npy", "marks1.npy", "--out", "folder.html")
        os.rename(self.folder / "folder.html", self.folder / "o.png.aux.xml")
        self.fails(64, "o.png.aux.xml", "picture", "scene.tif", "--marks", "auto", "--world", "--out", "o.png")

    def test_nothing_is_read_before_names_are_judged(self):
        self.fails(64, "one file", "picture", "no.npy", "no.npy", "no.npy", "no.npy", "--out", "a.png", "--grey1", "a.png")
        self.fails(74, "nowhere", "picture", "no.npy", "no.npy", "no.npy", "no.npy", "--out", "nowhere/a.png")

    def test_files_beside_that_are_inputs(self):
        """Not only the outputs themselves: what is written beside them, and files within GDAL's own names."""
        self.fails(64, "one of the inputs", "picture", "/vsisubfile/0,scene.tif", "--marks", "auto", "--out", "scene.tif")
        self.fails(64, "one of the inputs", "picture", "GTIFF_DIR:1:scene.tif", "--marks", "auto", "--out", "scene.tif")
        with zipfile.ZipFile(self.folder / "s.zip", "w") as archive:
            archive.write(self.folder / "scene.tif", "scene.tif")
        os.link(self.folder / "s.zip", self.folder / "z.tif")
        self.fails(64, "one of the inputs", "picture", "/vsizip/s.zip/scene.tif", "--marks", "auto", "--out", "z.tif")
        # A PNG's own world file, and an .aux.xml that leads to the input's.
        self.done("picture", "scene.tif", "--marks", "auto", "--out", "x.png", "--world", "--grey1", "X.png")
        os.rename(self.folder / "X.png", self.folder / "x.PNG")
        self.fails(64, "one of the inputs", "pad", "x.PNG", "--out", "x.png", "--world")
        (self.folder / "scene.tif.aux.xml").write_text("<PAMDataset></PAMDataset>")
        os.symlink("scene.tif.aux.xml", self.folder / "o.tif.aux.xml")
        self.fails(64, "one of the inputs", "picture", "scene.tif", "--marks", "auto", "--out", "o.tif")

    def test_nothing_is_worked_for_an_output_that_is_an_input(self):
        told = self.fails(64, "one of the inputs", "picture", "scene.tif", "--marks", "auto", "--out", "scene.tif")
        self.assertNotIn("invalid", told)

    @unittest.skipUnless(os.geteuid() == 0, "only root mounts")
    def test_one_folder_under_two_names(self):
        for name in ("a", "b"):
            (self.folder / name).mkdir()
        if subprocess.run(["mount", "--bind", self.folder / "a", self.folder / "b"], capture_output=True).returncode:
            self.skipTest("nothing can be mounted here")
        self.addCleanup(subprocess.run, ["umount", self.folder / "b"], check=True)
        self.fails(64, "one file", *self.picture("--out", "a/x.npy", "--grey1", "b/x.npy"))

    def test_output_is_input(self):
        os.link(self.folder / "db1.npy", self.folder / "again.npy")
        os.symlink("db1.npy", self.folder / "link.npy")
        for name in ("db1.npy", "marks2.npy", "again.npy", "link.npy"):
            self.fails(64, "one of the inputs", *self.picture("--out", "o.npy", "--grey1", name))
            if name != "marks2.npy":
                self.fails(64, "one of the inputs", "read", *SCENE[:2], "--out", "o.npy", "--marks-out", name)

    def test_links_are_followed(self):
        (self.folder / "sub").mkdir()
        self.put_earlier(["sub/real.png"])
        os.symlink("sub/real.png", self.folder / "a.png")
        os.symlink(self.folder / "a.png", self.folder / "b.png")
        os.symlink("sub/later.tif", self.folder / "c.tif")
        self.done(*self.picture("--out", "b.png", "--grey1", "c.tif"))
        self.done(*self.picture("--out", "plain.png", "--grey1", "plain.tif"))
        for name, place, plain in (("a.png", "sub/real.png", "plain.png"), ("b.png", "sub/real.png", "plain.png"), ("c.tif", "sub/later.tif", "plain.tif")):
            self.assertTrue((self.folder / name).is_symlink(), name)
            self.assertEqual((self.folder / place).read_bytes(), (self.folder / plain).read_bytes())
        self.assertEqual(sorted(os.listdir(self.folder / "sub")), ["later.tif", "real.png"])

    def test_long_names(self):
        for ending in (".png", ".tif", ".npy", ".html"):
            name = "n" * (255 - len(ending)) + ending
            words = ["view", *SCENE, "--out", name] if ending == ".html" else self.picture("--out", name)
            self.done(*words)
            self.done(*words)
            self.assertGreater((self.folder / name).stat().st_size, 100)
            self.assertEqual(self.left(), [])
        name = "é" * 125 + ".png"
        self.done(*self.picture("--out", name))
        name = b"\xff\xfe.png"
        result = subprocess.run([os.fsencode(PROGRAM), *map(os.fsencode, self.picture("--out")), name], cwd=self.folder, capture_output=True, timeout=60)
        self.assertEqual(result.returncode, 0, result.stderr)
        name = b"\xff\xfe.tif"
        result = subprocess.run([os.fsencode(PROGRAM), *map(os.fsencode, self.picture("--out")), name], cwd=self.folder, capture_output=True, timeout=60)
        self.assertEqual(result.returncode, 0, result.stderr)

    def test_rights(self):
        """Rights of an earlier file stay; a new one has those that the user's mask gives."""
        for name in ("a.png", "a.tif", "a.npy"):
            for rights in (0o600, 0o640, 0o664, 0o755, 0o620):
                self.put_earlier([name])
                (self.folder / name).chmod(rights)
                self.done(*self.picture("--out", name))
                self.assertEqual(stat.S_IMODE((self.folder / name).stat().st_mode), rights)
                self.assertNotEqual((self.folder / name).read_bytes(), EARLIER)
                (self.folder / name).unlink()
            for mask in (0o022, 0o077, 0o002):
                self.done(*self.picture("--out", name), preexec_fn=lambda: os.umask(mask))
                self.assertEqual(stat.S_IMODE((self.folder / name).stat().st_mode), 0o666 & ~mask)
                (self.folder / name).unlink()

    @unittest.skipUnless(os.geteuid() == 0, "only root gives files away")
    def test_owner(self):
        self.put_earlier(["a.png"])
        os.chown(self.folder / "a.png", 1234, 4321)
        self.done(*self.picture("--out", "a.png"))
        there = (self.folder / "a.png").stat()
        self.assertEqual((there.st_uid, there.st_gid), (1234, 4321))

    @unittest.skipUnless(os.geteuid() == 0, "only root becomes another")
    def test_another_user(self):
        """What may not be written is told before any work; what is another's and may be replaced keeps its group where that is allowed."""
        def other():
            os.setgroups([])
            os.setresgid(1234, 1234, 1234)
            os.setresuid(1234, 1234, 1234)

        self.folder.chmod(0o755)
        self.fails(74, "its folder", *self.picture("--out", "a.png"), preexec_fn=other)
        self.folder.chmod(0o777)
        self.put_earlier(["a.png"])
        (self.folder / "a.png").chmod(0o644)
        self.fails(74, "read-only", *self.picture("--out", "a.png"), preexec_fn=other)
        # Neither owner nor group can be kept: what the group might, nobody's group may now but what everybody may.
        (self.folder / "a.png").chmod(0o6764)
        self.done(*self.picture("--out", "a.png", "--force"), preexec_fn=other)
        there = (self.folder / "a.png").stat()
        self.assertEqual((there.st_uid, there.st_gid, stat.S_IMODE(there.st_mode)), (1234, 1234, 0o744))
        # A sticky folder: another's file cannot be replaced.
        self.folder.chmod(0o1777)
        for name in ("a.png", "b.png"):
            self.clear([name])
            self.put_earlier([name])
            (self.folder / name).chmod(0o666)
        os.chown(self.folder / "a.png", 1234, 1234)
        self.fails(74, "b.png", *self.picture("--out", "a.png", "--grey1", "b.png"), preexec_fn=other)

    def test_read_only(self):
        for name in ("a.png", "a.tif", "a.npy"):
            self.put_earlier([name])
            (self.folder / name).chmod(0o444)
            self.fails(74, "--force", *self.picture("--out", name))
            self.fails(74, "--force", *self.picture("--out", "new.png", "--grey1", name))
            self.done(*self.picture("--out", name, "--force"))
            self.assertEqual(stat.S_IMODE((self.folder / name).stat().st_mode), 0o444)
            self.assertNotEqual((self.folder / name).read_bytes(), EARLIER)
        self.put_earlier(["p.html"])
        (self.folder / "p.html").chmod(0o400)
        self.fails(74, "--force", "view", *SCENE, "--out", "p.html")
        self.done("view", *SCENE, "--out", "p.html", "--force")
        self.put_earlier(["r.npy"])
        (self.folder / "r.npy").chmod(0o444)
        self.fails(74, "--force", "read", "db1.npy", "--out", "r.npy")
        self.done("read", "db1.npy", "--out", "r.npy", "--force")

    def test_access_lists(self):
        """An access list is of a file's rights."""
        path = self.folder / "a.png"
        self.put_earlier(["a.png"])
        path.chmod(0o640)
        # user::rw-, user 1234: r--, group::r--, mask::r--, other::---
        entries = ((1, 6, 0xffffffff), (2, 4, 1234), (4, 4, 0xffffffff), (0x10, 4, 0xffffffff), (0x20, 0, 0xffffffff))
        list_ = b"\x02\x00\x00\x00" + b"".join(tag.to_bytes(2, "little") + rights.to_bytes(2, "little") + who.to_bytes(4, "little") for tag, rights, who in entries)
        try:
            os.setxattr(path, "system.posix_acl_access", list_)
        except OSError as error:
            self.skipTest(f"no access lists here: {error}")
        self.done(*self.picture("--out", "a.png"))
        self.assertEqual(os.getxattr(path, "system.posix_acl_access"), list_)

    def test_lists_of_the_folder(self):
        """A folder's list for new files is not the list of a file that had none."""
        entries = ((1, 7, 0xffffffff), (2, 6, 1234), (4, 7, 0xffffffff), (0x10, 7, 0xffffffff), (0x20, 5, 0xffffffff))
        list_ = b"\x02\x00\x00\x00" + b"".join(tag.to_bytes(2, "little") + rights.to_bytes(2, "little") + who.to_bytes(4, "little") for tag, rights, who in entries)
        self.put_earlier(["a.png"])
        (self.folder / "a.png").chmod(0o640)
        try:
            os.setxattr(self.folder, "system.posix_acl_default", list_)
        except OSError as error:
            self.skipTest(f"no access lists here: {error}")
        self.done(*self.picture("--out", "a.png"))
        self.assertEqual(stat.S_IMODE((self.folder / "a.png").stat().st_mode), 0o640)
        self.assertNotIn("system.posix_acl_access", os.listxattr(self.folder / "a.png"))

    def test_earlier_file_goes_meanwhile(self):
        """Then the output is a new file like any other."""
        self.put_earlier(["a.npy"])
        process = self.slowly(self.picture("--out", "a.npy"), "fsync:1", 1, preexec_fn=lambda: os.umask(0o027))
        (self.folder / "a.npy").unlink()
        self.assertEqual(self.ends(process)[0], 0)
        self.assertEqual(stat.S_IMODE((self.folder / "a.npy").stat().st_mode), 0o640)

    def test_files_that_look_like_part_files(self):
        """Only names just as the program gives them are swept."""
        self.done("read", "db1.npy", "--out", "o.npy", environment={"FAULT": "unlink:1*:1"})
        self.done("read", "db1.npy", "--out", "o.npy", environment={"FAULT": "unlink:1*:1"})
        [part] = self.left()
        mine = [part.replace(".part", ".copy.part"), part.replace(".part", "0.part"), part + ".bak", ".quicklook-x.part"]
        for name in mine:
            (self.folder / name).write_bytes(b"mine")
        self.done("read", "db1.npy", "--out", "o.npy")
        self.assertEqual(sorted(self.left()), sorted(mine))

    def test_hard_links(self):
        """Another name of the earlier file keeps the earlier bytes."""
        self.put_earlier(["a.png"])
        os.link(self.folder / "a.png", self.folder / "kept.png")
        self.done(*self.picture("--out", "a.png"))
        self.assertEqual((self.folder / "kept.png").read_bytes(), EARLIER)
        self.assertEqual(pathlib.Path(self.folder / "a.png").stat().st_nlink, 1)
