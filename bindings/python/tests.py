"""Runs the tests of volmeixi.py and of the command `python3 -m volmeixi`. One that is skipped counts
as failed: the machine that tests has NumPy."""

import pathlib
import sys
import unittest

HERE = pathlib.Path(__file__).resolve().parent
sys.path.insert(0, str(HERE))

if __name__ == "__main__":
    done = unittest.TextTestRunner(verbosity=1).run(
        unittest.defaultTestLoader.discover(str(HERE), "test_*.py")
    )
    for test, why in done.skipped:
        print(f"skipped, so failed: {test}: {why}", file=sys.stderr)
    sys.exit(0 if done.wasSuccessful() and not done.skipped and done.testsRun else 1)
