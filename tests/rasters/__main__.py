"""Rasters of every kind through the program `quicklook`, pixel by pixel against GDAL and NumPy. Usage: python3 tests/rasters PATH-OF-QUICKLOOK [CLASS..]"""
import os
import sys
import unittest

sys.path.insert(0, os.path.dirname(os.path.dirname(os.path.abspath(__file__))))

from rasters import hostile, located, marks, refused, silent, told, variants  # noqa: E402  (they stand beside this file)

suite = unittest.TestSuite()
for module in (variants, marks, refused, silent, hostile, located, told):
    suite.addTests(unittest.defaultTestLoader.loadTestsFromModule(module))
chosen = [case for group in suite for case in group if not sys.argv[1:] or type(case).__name__ in sys.argv[1:]]
result = unittest.TextTestRunner(verbosity=1).run(unittest.TestSuite(chosen))
sys.exit(0 if chosen and result.wasSuccessful() else 1)
