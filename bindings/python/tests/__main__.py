"""Runs the tests of the module: python3 bindings/python/tests [WORD ..], those whose names have one of the words.

DMA330_SO names the library. The last line is 'N passed, M failed'. A test whose tool is missing is left out, and a line
says so.
"""
import os
import sys
import unittest

HERE = os.path.dirname(os.path.realpath(__file__))


class Counts(unittest.TextTestResult):
    """A result that counts each row of a test by itself."""

    def __init__(self, *words, **more):
        super().__init__(*words, **more)
        self.passed = self.rows = 0

    def startTest(self, test):
        self.rows = 0
        super().startTest(test)

    def addSubTest(self, test, subtest, err):
        super().addSubTest(test, subtest, err)
        self.rows += 1
        self.passed += err is None

    def addSuccess(self, test):
        super().addSuccess(test)
        self.passed += self.rows == 0


def each(suite):
    for it in suite:
        if isinstance(it, unittest.TestSuite):
            yield from each(it)
        else:
            yield it


def main():
    sys.path.insert(0, os.path.dirname(HERE))
    found = each(unittest.defaultTestLoader.discover(HERE))
    suite = unittest.TestSuite(it for it in found if not sys.argv[1:] or any(word in it.id() for word in sys.argv[1:]))
    result = unittest.TextTestRunner(resultclass=Counts, stream=sys.stdout, warnings="error").run(suite)
    for _, why in result.skipped:
        print("%s left out" % why)
    failed = len(result.failures) + len(result.errors) + len(result.unexpectedSuccesses)
    print("%d passed, %d failed" % (result.passed, failed))
    return failed > 0 or result.passed == 0


if __name__ == "__main__":
    sys.exit(main())
