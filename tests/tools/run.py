"""Runs the tests of this folder, or those that are named, as `run.py test_plot test_sweep.Sweep`. The last line is `N passed, M failed, K skipped`.
A test is skipped if a program or library is missing; the reason is its name in tests/needs.txt."""

from __future__ import annotations

import sys
import unittest
from pathlib import Path

HERE = Path(__file__).resolve().parent
sys.path += [str(HERE), str(HERE.parent)]
import needs  # noqa: E402


def main(names: list[str]) -> bool:
    loader = unittest.defaultTestLoader
    tests = loader.loadTestsFromNames(names) if names else loader.discover(str(HERE))
    result = unittest.TextTestRunner(stream=sys.stdout, verbosity=0).run(tests)
    for test, reason in result.skipped:
        print(needs.skipped("tools", test.id(), reason))
    bad = len(result.failures) + len(result.errors)
    print(f"{result.testsRun - bad - len(result.skipped)} passed, {bad} failed, {len(result.skipped)} skipped")
    return bad > 0


if __name__ == "__main__":
    sys.exit(main(sys.argv[1:]))
