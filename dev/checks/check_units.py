"""The modules of tools/, and some of dev/parts, answer what was worked out by hand: the tests of dev/units. NOT PROVED; it trusts who typed the numbers there.

    dev/do check_units [NAME ..]      # as dev/do check_units cells puzzles; all without a name

Prints each test that fails, and how many there are; then ends with 1 where one fails. They take some seconds and no program."""

import sys
import unittest

from tree import ROOT

UNITS = ROOT / "dev" / "units"


def main(names):
    files = [UNITS / f"test_{name}.py" for name in names] or sorted(UNITS.glob("test_*.py"))
    missing = [file.name for file in files if not file.is_file()]
    if missing:
        sys.exit(f"check_units: dev/units has no {' '.join(missing)}")
    sys.path.insert(0, str(UNITS))
    tests = unittest.TestSuite(unittest.defaultTestLoader.loadTestsFromName(file.stem) for file in files)
    done = unittest.TextTestRunner(stream=sys.stderr, verbosity=0).run(tests)
    failed = len(done.failures) + len(done.errors)
    print(f"{done.testsRun} tests of {len(files)} files, {failed} fail")
    return 1 if failed or not done.testsRun else 0


if __name__ == "__main__":
    if any(it.startswith("-") for it in sys.argv[1:]):
        sys.exit(__doc__)
    sys.exit(main(sys.argv[1:]))
