"""Limits: memory, sizes of files, open files, threads and processes, processor time."""
import random
import resource
import signal

from faults.common import EARLIER, FORMATS, Case


def limit(what, most):
    return lambda: resource.setrlimit(what, (most, most))


class Limits(Case):
    rows, cols = 1200, 1300

    def test_memory(self):
        """Whatever there is of it: done, or 71 with how much was wanted, or 74 where GDAL's process had none; never a signal."""
        for form in ("npy", "png", "tif", "html"):
            names, words = FORMATS[form], self.words(form)
            self.done(*words)
            new = self.bytes_of(names)
            seen, dice = set(), random.Random(form)
            steps = (*range(12, 60, 4), *range(60, 300, 12), *range(300, 900, 60), *(dice.uniform(10, 150) for _ in range(40)))
            for what, megabytes in ((what, megabytes) for what in (resource.RLIMIT_AS, resource.RLIMIT_DATA) for megabytes in steps):
                self.put_earlier(names)
                result = self.run_(*words, preexec_fn=limit(what, int(megabytes * (1 << 20))))
                told = result.stderr.decode(errors="replace")
                if "error while loading shared libraries" in told or b"cannot allocate" in result.stderr and result.returncode == 127:
                    continue    # the system could not start the program
                case = (form, what, megabytes, result.returncode, told)
                self.assertIn(result.returncode, (0, 71, 74), case)
                self.assertNotIn("internal error", told, case)
                if result.returncode == 71:
                    self.assertRegex(told, r"\d+ bytes of memory are wanted", case)
                self.assertEqual(self.bytes_of(names), new if result.returncode == 0 else [EARLIER] * len(names), case)
                self.assertEqual(self.left(), [], case)
                seen.add(result.returncode)
            self.assertIn(0, seen, form)
            if form in ("npy", "png"):
                self.assertEqual(seen, {0, 71}, form)

    def test_memory_while_names_are_given(self):
        """It ends before or after any of the moves: 71 and all as before, or all outputs are there."""
        names, words = FORMATS["npy"], self.words("npy")
        self.done(*words)
        new = self.bytes_of(names)
        seen = set()
        for way, places in (("exchange", (1, 2, 3)), ("fsync", (3, 4)), ("unlink", (1, 2, 3))):
            for place in places:
                for is_there in (True, False):
                    self.clear(names)
                    if is_there:
                        self.put_earlier(names)
                    result = self.run_(*words, environment={"FAULT": f"{way}:{place}:0", "FAULT_NO_MEMORY": "1"})
                    case = (way, place, is_there, result.returncode, result.stderr)
                    self.assertIn(result.returncode, (0, 71), case)
                    self.assertEqual(self.bytes_of(names), [EARLIER if is_there else None] * 3 if result.returncode else new, case)
                    self.assertEqual(self.left(), [], case)
                    seen.add((way, result.returncode))
        self.assertIn(("exchange", 71), seen)
        self.assertIn(("unlink", 0), seen)

    def test_file_size(self):
        """A file that may grow no further is an error of the write, whatever the program inherits for SIGXFSZ."""
        for form in ("npy", "png", "tif", "html"):
            names = FORMATS[form]
            for most in (0, 1000, 300_000):
                self.put_earlier(names)
                self.fails(74, "", *self.words(form), preexec_fn=limit(resource.RLIMIT_FSIZE, most))

    def test_open_files(self):
        seen = set()
        for most in range(3, 40):
            for form in ("npy", "tif"):
                self.put_earlier(FORMATS[form])
                before = self.snapshot()
                result = self.run_(*self.words(form), preexec_fn=limit(resource.RLIMIT_NOFILE, most))
                if result.returncode == 127:
                    continue
                self.assertIn(result.returncode, (0, 74), (most, form, result.stderr))
                seen.add((form, result.returncode))
                if result.returncode:
                    self.assertEqual(self.snapshot(), before)
                self.assertEqual(self.left(), [])
        self.assertEqual(seen, {("npy", 0), ("npy", 74), ("tif", 0), ("tif", 74)})

    def test_threads(self):
        """Without threads the same bytes."""
        for form in ("npy", "tif", "html"):
            names, words = FORMATS[form], self.words(form)
            self.done(*words)
            new = self.bytes_of(names)
            self.clear(names)
            self.done(*words, environment={"FAULT": "thread:1*:11"})
            self.assertEqual(self.bytes_of(names), new)

    def test_stack(self):
        """The program brings its own. For the first thread it raises a low limit; where it may not, it says so and never ends by a signal."""
        for soft, hard in ((16, 1024), (64, 64), (1024, 1024)):
            kilobytes = (soft << 10, hard << 10)
            self.done(*self.words("npy"), preexec_fn=lambda: resource.setrlimit(resource.RLIMIT_STACK, kilobytes))
        self.done(*self.words("npy"), environment={"RUST_MIN_STACK": "1", "RAYON_NUM_THREADS": "100000"})
        for kilobytes in [16] * 20 + [63]:
            before = self.snapshot()
            result = self.run_(*self.words("npy"), preexec_fn=limit(resource.RLIMIT_STACK, kilobytes << 10))
            self.assertIn(result.returncode, (0, 71), (kilobytes, result.stderr))
            if result.returncode:
                self.assertIn(f"65536 bytes of stack are wanted, and the limit is {kilobytes << 10}", result.stderr.decode())
                self.assertEqual(self.snapshot(), before)

    def test_processes(self):
        self.put_earlier(FORMATS["tif"])
        self.fails(74, "does not start", *self.words("tif"), environment={"FAULT": "spawn:1*:11"})

    def test_processor_time(self):
        """Ended by its limit the program leaves nothing behind."""
        names = FORMATS["html"]
        self.put_earlier(names)
        before = self.snapshot()
        result = self.run_("demo", "folder", "--side", "4096", preexec_fn=lambda: resource.setrlimit(resource.RLIMIT_CPU, (1, 3)))
        self.assertEqual(result.returncode, -signal.SIGXCPU)
        found = self.snapshot()
        self.assertEqual({name for name in found if not name.startswith("folder")}, set(before))
        self.assertEqual([name for name in found if name.startswith("folder/")], [])
