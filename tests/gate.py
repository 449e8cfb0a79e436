#!/usr/bin/env python3
"""The gate's ways out: .ci/run over stand-ins of what it calls, which pass, fail, hang, are missing or are killed. On each way its last line is the
only one of the form 'N passed, M failed', M is the true number of failures, and the status is 0 only with none. Usage: gate.py"""
import os
import pathlib
import re
import shutil
import signal
import subprocess
import tempfile
import time
import unittest

GATE = pathlib.Path(__file__).resolve().parent.parent / ".ci" / "run"
TESTS = ["calls", "faults", "compare"]
# The steps counted once each, with rt's ten and the edits' seven beside them.
ONCE = ["kept", "packages", "lint", "archive", "crates", "host", *TESTS]
ALL = 10 + 7 + len(ONCE)
SIGNALS = (signal.SIGTERM, signal.SIGINT, signal.SIGHUP)

# A stand-in: its name and first word make the step; BAD names steps that fail, CRASH some that are cut off after their count, LIES some whose
# count has no failure though they fail, SLOW one that hangs. LOST is what rt says of edits that show nothing.
STAND_IN = r"""#!/bin/bash
name=$(basename "$0")
case $name in
rt) step=proofs ;;
build | run) step=$1 ;;
*) step=$name ;;
esac
case $1 in
--list) [ -n "$NO_LIST" ] || echo "calls faults compare"; exit 0 ;;
--needs) [ -z "$NO_NEEDS" ] || exit 127; [ "$2" != compare ] || [ -z "$NO_ORIGINALS" ] || { echo "no originals"; exit 1; }; exit 0 ;;
esac
echo "$step" >>"$ORDER"
[ "$step" != "$SLOW" ] || { echo "3 passed, 0 failed"; sleep 60; }
case " $BAD " in *" $step "*) bad=1 ;; *) bad=0 ;; esac
case $step in
proofs) [ "$#" = 1 ] && [ "$1" = ci ] || exit 64; [ -z "$LOST" ] || echo "$LOST"; [ -n "$NOTHING" ] && echo "0 passed, 0 failed" || echo "$((10 - bad)) passed, $bad failed" ;;
edits) echo "$((7 - bad)) passed, $bad failed" ;;
*) echo "3 passed, 0 failed" ;;
esac
case " $CRASH " in *" $step "*) echo "cut off"; exit 137 ;; esac
case " $LIES " in *" $step "*) exit 1 ;; esac
exit $bad
"""


def hear():
    """The signals end the gate, though whoever runs this may ignore some (nohup): a shell cannot trap what it was begun to ignore."""
    for number in SIGNALS:
        signal.signal(number, signal.SIG_DFL)


class Gate(unittest.TestCase):
    def setUp(self):
        folder = tempfile.TemporaryDirectory()
        self.addCleanup(folder.cleanup)
        self.top = pathlib.Path(folder.name)
        for name in ("bin/rt", "tools/edits", "tools/packages", "tools/lint", "tools/build", "tests/run"):
            path = self.top / name
            path.parent.mkdir(exist_ok=True)
            path.write_text(STAND_IN)
            path.chmod(0o755)
        (self.top / ".ci").mkdir()
        shutil.copy(GATE, self.top / ".ci" / "run")

    def start(self, stdout=subprocess.PIPE, **words):
        env = dict(os.environ, PATH=f"{self.top}/bin:/usr/bin:/bin", ORDER=str(self.top / "order"), GATE_SECONDS="70", BAD="", SLOW="", CRASH="", LIES="", NO_ORIGINALS="", NO_LIST="", NO_NEEDS="", NOTHING="", LOST="")
        env.update(words)
        return subprocess.Popen([self.top / ".ci" / "run"], env=env, stdout=stdout, stderr=subprocess.STDOUT, text=True, preexec_fn=hear)

    def ends(self, gate, passed, failed):
        said, _ = gate.communicate(timeout=50)
        verdicts = [line for line in said.splitlines() if re.search(r"passed, [0-9]+ failed", line)]
        self.assertEqual(verdicts, [f"{passed} passed, {failed} failed"], said)
        self.assertEqual(said.splitlines()[-1], verdicts[0])
        self.assertEqual(gate.returncode, 0 if failed == 0 else 1)
        return said

    def test_all_pass(self):
        self.ends(self.start(), ALL, 0)

    def test_proofs_come_first(self):
        self.ends(self.start(), ALL, 0)
        self.assertEqual((self.top / "order").read_text().split()[0], "proofs")

    def test_each_step_that_fails_is_counted(self):
        for step in ["proofs", "edits", *ONCE]:
            with self.subTest(step=step):
                self.assertIn(f"gate: {step} FAILED", self.ends(self.start(BAD=step), ALL - 1, 1))

    def test_several_failures_add_up(self):
        self.ends(self.start(BAD="edits lint faults compare"), ALL - 4, 4)

    def test_a_step_that_is_cut_off_after_its_count(self):
        self.ends(self.start(CRASH="proofs"), ALL - 10, 1)
        self.ends(self.start(CRASH="edits"), ALL - 7, 1)
        self.ends(self.start(CRASH="calls"), ALL - 1, 1)

    def test_a_count_without_failures_and_another_status(self):
        self.ends(self.start(LIES="proofs"), ALL, 1)
        self.ends(self.start(LIES="edits"), ALL, 1)

    def test_an_edit_that_rt_calls_bad(self):
        ok = "rt: ok; handles allowed: none; must-fail edits: 7 refused, {}; every proof and must-fail edit was done in this run"
        self.ends(self.start(LOST=ok.format("1 bad")), ALL, 1)
        self.ends(self.start(LOST=ok.format("2 of them only by a limit, 2 bad")), ALL, 2)
        self.ends(self.start(LOST="rt: note: bad must-fail edits, as told above: 3. They fail nothing here\n" + ok.format("3 bad")), ALL, 3)
        self.ends(self.start(LOST="rt: ok; handles allowed: none; must-fail edits: 7 refused; done in this run: 2 of the 9 proofs and 1 of the 7 must-fail edits"), ALL, 0)

    def test_the_edits_are_given_what_rt_said(self):
        self.assertIn("edits: tools/edits --rt ", self.ends(self.start(), ALL, 0))

    def test_no_rt(self):
        (self.top / "bin" / "rt").unlink()
        self.ends(self.start(), ALL - 10, 1)

    def test_no_list_of_tests(self):
        (self.top / "tests" / "run").unlink()
        self.ends(self.start(), 0, 1)

    def test_an_empty_list_of_tests(self):
        self.ends(self.start(NO_LIST="1"), 0, 1)

    def test_a_skip_needs_its_reason(self):
        self.ends(self.start(NO_NEEDS="1"), ALL, 0)

    def test_proofs_of_nothing(self):
        self.ends(self.start(NOTHING="1"), ALL - 10, 1)

    def test_originals_missing_is_a_named_skip(self):
        said = self.ends(self.start(NO_ORIGINALS="1"), ALL - 1, 0)
        self.assertIn("gate: 1 skipped: compare, no originals", said)

    def test_ended_by_a_signal(self):
        for number in SIGNALS:
            with self.subTest(signal=number):
                (self.top / "order").unlink(missing_ok=True)
                gate = self.start(SLOW="faults")
                for _ in range(500):
                    if "compare" in (self.top / "order").read_text().split() if (self.top / "order").exists() else False:
                        break
                    time.sleep(0.02)
                time.sleep(0.3)
                gate.send_signal(number)
                self.assertIn("gate: faults NOT RUN to its end", self.ends(gate, ALL - 1, 1))

    def test_ended_during_the_proofs(self):
        gate = self.start(SLOW="proofs")
        while not (self.top / "order").exists():
            time.sleep(0.02)
        gate.terminate()
        self.ends(gate, 0, 2 + len(ONCE))

    def test_out_of_time(self):
        said = self.ends(self.start(SLOW="proofs", GATE_SECONDS="1"), 0, 2 + len(ONCE))
        self.assertIn("gate: out of time", said)

    def test_killed(self):
        """Nobody is signalled in place of a gate that is gone."""
        with open(self.top / "said", "w+", encoding="utf-8") as said:
            gate = self.start(stdout=said, SLOW="proofs", GATE_SECONDS="2")
            while not (self.top / "order").exists():
                time.sleep(0.02)
            gate.kill()
            gate.wait()
            time.sleep(4)
            said.seek(0)
            self.assertNotIn("out of time", said.read())


if __name__ == "__main__":
    unittest.main()
