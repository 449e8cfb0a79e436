"""Ended from outside: signals, kill -9 at random times, several runs at once."""
import fcntl
import os
import random
import signal
import subprocess
import time
import unittest

from faults.common import EARLIER, FORMATS, PROGRAM, Case, shim

TIMES = int(os.environ.get("FAULT_TIMES", "100"))


class Ended(Case):
    rows, cols = 400, 500

    def start(self, words, **more):
        return subprocess.Popen([PROGRAM, *words], cwd=self.folder, stdin=subprocess.DEVNULL, stdout=subprocess.DEVNULL, stderr=subprocess.DEVNULL, **more)

    def took(self, words):
        begun = time.monotonic()
        self.done(*words)
        return time.monotonic() - begun

    def at_random_times(self, form, how, times, seed):
        """Ends the program at random times. Gives how often it ended before its outputs were there, after, and between."""
        names, words = FORMATS[form], self.words(form)
        dice = random.Random(seed)
        seconds = min(self.took(words) for _ in range(3))
        new = self.bytes_of(names)
        counts = {"old": 0, "new": 0, "both": 0, "left": 0}
        for _ in range(times):
            self.put_earlier(names)
            process = self.start(words)
            time.sleep(dice.uniform(0, 1.2 * seconds))
            process.send_signal(how)
            status = process.wait(timeout=60)
            self.assertIn(status, (0, -how))
            found = self.bytes_of(names)
            for got, whole in zip(found, new):
                self.assertIn(got, (EARLIER, whole), (form, how))
            if found == new:
                counts["new"] += 1
            elif found == [EARLIER] * len(names):
                counts["old"] += 1
            else:
                counts["both"] += 1
            if status == 0:
                self.assertEqual(found, new)
            elif how != signal.SIGKILL:
                self.assertEqual(found, [EARLIER] * len(names))
            counts["left"] += len(self.left())
            if how != signal.SIGKILL:
                self.assertEqual(self.left(), [], form)
        return counts

    def killed(self, form):
        counts = self.at_random_times(form, signal.SIGKILL, TIMES, 7)
        print(f"kill -9, {form}: {counts}", flush=True)
        self.assertGreater(counts["old"], TIMES / 10)
        self.assertLessEqual(counts["both"], TIMES / 20)
        # The next run for the same outputs removes what the killed ones left.
        self.done(*self.words(form))
        self.assertEqual(self.left(), [])
        self.assertEqual(sorted(name for name in os.listdir(self.folder) if name not in FORMATS[form]), self.inputs)

    def test_killed_npy(self):
        self.killed("npy")

    def test_killed_png(self):
        self.killed("png")

    def test_killed_png_with_world_files(self):
        self.killed("world")

    def test_killed_tif(self):
        self.killed("tif")

    def test_killed_cog(self):
        self.killed("cog")

    def test_killed_page(self):
        self.killed("html")

    def test_signals(self):
        """All outputs or none, and nothing beside them."""
        for form in ("npy", "tif", "html"):
            for how in (signal.SIGINT, signal.SIGTERM, signal.SIGHUP, signal.SIGQUIT, signal.SIGUSR1, signal.SIGALRM):
                counts = self.at_random_times(form, how, TIMES // 8, int(how))
                self.assertEqual(counts["both"], 0, (form, how, counts))
                self.assertEqual(counts["left"], 0, (form, how, counts))

    def test_signal_while_names_are_given(self):
        """A signal between two renames waits until the first is put back."""
        names, words = FORMATS["npy"], self.words("npy")
        for place in (1, 2, 3):
            for is_there in (True, False):
                self.clear(names)
                if is_there:
                    self.put_earlier(names)
                before = self.bytes_of(names)
                process = self.slowly(words, f"exchange:{place}", 1)
                process.send_signal(signal.SIGTERM)
                self.assertEqual(self.ends(process), (-signal.SIGTERM, ""))
                self.assertEqual(self.bytes_of(names), before)
                self.assertEqual(self.left(), [])

    def test_signal_after_names_are_given(self):
        """Once all outputs have their names the program has done its work."""
        names, words = FORMATS["npy"], self.words("npy")
        self.done(*words)
        new = self.bytes_of(names)
        self.put_earlier(names)
        # The earlier files are removed last, slowly.
        process = self.slowly(words, "unlink:1", 1)
        self.assertEqual(self.bytes_of(names), new)
        process.send_signal(signal.SIGTERM)
        self.assertEqual(self.ends(process), (0, ""))
        self.assertEqual(self.bytes_of(names), new)
        self.assertEqual(self.left(), [])

    def test_signals_that_other_programs_send(self):
        """Whatever ends a program ends this one with nothing left."""
        names, words = FORMATS["npy"], self.words("npy")
        for how in (signal.SIGABRT, signal.SIGSYS, signal.SIGTRAP, signal.SIGUSR1, signal.SIGUSR2, signal.SIGALRM, signal.SIGVTALRM, signal.SIGPROF, signal.SIGIO, signal.SIGPWR,
                    signal.SIGRTMIN, signal.SIGRTMAX):
            self.put_earlier(names)
            process = self.slowly(words, "fsync:3", 1)
            self.assertGreaterEqual(len(self.left()), 1)
            process.send_signal(how)
            self.assertEqual(self.ends(process)[0], -how)
            self.assertEqual(self.bytes_of(names), [EARLIER] * 3)
            self.assertEqual(self.left(), [], how)

    def test_folders_of_a_demo(self):
        process = self.slowly(["demo", "new/d", "--side", "32"], "fsync:3", 1)
        process.send_signal(signal.SIGTERM)
        self.assertEqual(self.ends(process)[0], -signal.SIGTERM)
        self.assertFalse((self.folder / "new").exists())

    def test_sweeping_and_naming(self):
        """A run that sweeps takes no second name from one that names, whatever a killed one left."""
        names, words = FORMATS["npy"], self.words("npy")
        self.put_earlier(names)
        killed = self.run_(*words, environment={"FAULT": "exchange:2:0", "FAULT_KILL": "1"})
        self.assertEqual(killed.returncode, -9)
        self.assertEqual(len(self.left()), 3)
        self.put_earlier(names)
        # Another program has the earlier file locked when the run that names would hold it.
        with open(self.folder / names[0], "rb") as file:
            fcntl.flock(file, fcntl.LOCK_EX)
            slow = self.slowly(words, "exchange:2", 10)
        other = self.start(words)
        time.sleep(3)
        other.kill()
        other.wait()
        slow.send_signal(signal.SIGTERM)
        self.assertEqual(self.ends(slow)[0], -signal.SIGTERM)
        self.assertEqual(self.bytes_of(names), [EARLIER] * 3)
        self.done(*words)
        self.assertEqual(self.left(), [])

    def test_ignored_signals_stay_ignored(self):
        """As nohup has it."""
        words = self.words("npy")
        seconds = min(self.took(words) for _ in range(3))
        living = 0
        for part in range(1, 12):
            process = self.start(words, preexec_fn=lambda: signal.signal(signal.SIGHUP, signal.SIG_IGN))
            time.sleep(part * seconds / 16)
            living += process.poll() is None
            process.send_signal(signal.SIGHUP)
            self.assertEqual(process.wait(timeout=60), 0)
        self.assertGreater(living, 3)

    def test_a_living_run_keeps_its_part_files(self):
        """A run for the same output takes no part file from one that still writes."""
        names, words = FORMATS["npy"], self.words("npy")
        slow = self.slowly(words, "fsync:3", 8)
        parts = set(self.left())
        self.assertGreaterEqual(len(parts), 1)
        self.done(*words)
        self.assertEqual(set(self.left()), parts)
        self.assertEqual(self.ends(slow)[0], 0)
        self.assertEqual(self.left(), [])
        self.assertNotIn(None, self.bytes_of(names))

    def test_several_at_once(self):
        """Runs of different results on the same outputs: each file is always one of them, whole, and in the end all are of one run."""
        names, results = FORMATS["npy"], []
        for strategy in ("default", "robust", "equalized", "tamed"):
            words = [*self.words("npy"), "--strategy", strategy]
            self.done(*words)
            results.append((words, self.bytes_of(names)))
        self.assertGreaterEqual(len({whole[0] for _, whole in results}), 3)
        for _ in range(max(20, TIMES // 4)):
            running = [self.start(words) for words, _ in results for _ in range(2)]
            while any(process.poll() is None for process in running):
                self.assertIn((self.folder / names[0]).read_bytes(), [whole[0] for _, whole in results])
            self.assertEqual([process.returncode for process in running], [0] * len(running))
            self.assertIn(self.bytes_of(names), [whole for _, whole in results])
            self.assertEqual(self.left(), [])

    @unittest.skipUnless(os.geteuid() == 0, "only root makes containers")
    def test_several_of_one_process_number(self):
        """As in containers that share a folder: each run is process 1 of its own."""
        container = ["unshare", "--pid", "--fork", "--kill-child"]
        if subprocess.run([*container, "true"], capture_output=True).returncode:
            self.skipTest("no containers here")
        results = []
        for strategy in ("default", "robust", "tamed"):
            words = [*self.words("npy"), "--strategy", strategy]
            self.done(*words)
            results.append((words, self.bytes_of(FORMATS["npy"])))
        for _ in range(20):
            running = [subprocess.Popen([*container, PROGRAM, *words], cwd=self.folder, stdin=subprocess.DEVNULL, stdout=subprocess.DEVNULL, stderr=subprocess.DEVNULL)
                       for words, _ in results for _ in range(2)]
            self.assertEqual([process.wait(timeout=60) for process in running], [0] * len(running))
            self.assertIn(self.bytes_of(FORMATS["npy"]), [whole for _, whole in results])
            self.assertEqual(self.left(), [])

    def test_gdals_process_ends_with_the_program(self):
        """Killed while it reads what GDAL's process tells, with every read slow enough to be met."""
        process = self.start(self.words("tif"), env=dict(os.environ, LD_PRELOAD=shim(), FAULT="read:1*:0", FAULT_WAIT="0.3"))

        def state(number):
            """The state and the parent of a process; none of one that is gone."""
            try:
                with open(f"/proc/{number}/stat") as file:
                    return file.read().rpartition(")")[2].split()[:2]
            except (FileNotFoundError, ProcessLookupError):
                return None

        def children():
            return [number for number in os.listdir("/proc") if number.isdigit() and (state(number) or ["", ""])[1] == str(process.pid)]

        end = time.monotonic() + 20
        while not children() and time.monotonic() < end:
            time.sleep(0.01)
        found = children()
        process.kill()
        process.wait()
        self.assertTrue(found)
        end = time.monotonic() + 20
        while any((state(child) or "Z")[0] != "Z" for child in found) and time.monotonic() < end:
            time.sleep(0.01)
        self.assertTrue(all((state(child) or "Z")[0] == "Z" for child in found))
