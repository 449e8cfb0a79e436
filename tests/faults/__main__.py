"""What goes wrong outside the program: names that collide, calls that fail, signals, limits, inputs that change, another floating-point
environment. No file is lost, no signal or panic ends the program. Usage: python3 tests/faults PATH-OF-QUICKLOOK [CLASS...]"""
import os
import sys
import unittest

sys.path.insert(0, os.path.dirname(os.path.dirname(os.path.abspath(__file__))))
os.environ["QUICKLOOK_PROGRAM"] = os.path.abspath(sys.argv[1])

if __name__ == "__main__":
    from faults import demo, ended, floats, inputs, limits, names, streams, together, told

    loader = unittest.TestLoader()
    suite = unittest.TestSuite()
    for module in (names, together, ended, limits, streams, inputs, demo, floats, told):
        for test in loader.loadTestsFromModule(module):
            suite.addTests(case for case in test if not sys.argv[2:] or type(case).__name__ in sys.argv[2:])
    result = unittest.TextTestRunner(verbosity=1).run(suite)
    sys.exit(not result.wasSuccessful() or result.testsRun == 0)
