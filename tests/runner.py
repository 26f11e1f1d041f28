#!/usr/bin/env python3
"""Runs one module of tests by unittest, prints each check that failed, and last the sum 'N passed,
M failed'.
Usage: tests/runner.py NAME        runs tests/test_NAME.py, over programs that are built"""
import importlib
import sys
import traceback
import unittest


def text_of(err):
    """What an assertion says, and of another exception where it was raised, too."""
    kind, value, _ = err
    is_plain = issubclass(kind, AssertionError)
    return str(value) if is_plain else ''.join(traceback.format_exception(*err)).rstrip()


class Checks(unittest.TestResult):
    """Counts checks. Each subTest is one, and a method without any is one; a method with subTests
    is not counted beside them. What fails outside of subTests, be it in a method, in what prepares
    or cleans up, is one that failed."""

    def __init__(self):
        super().__init__()
        self.passed = self.failed = 0
        self.has_subtests = False

    def startTest(self, test):
        super().startTest(test)
        self.has_subtests = False

    def addSubTest(self, test, subtest, err):
        super().addSubTest(test, subtest, err)
        self.has_subtests = True
        if err is None:
            self.passed += 1
        else:
            self.fail(subtest, text_of(err))

    def addSuccess(self, test):
        super().addSuccess(test)
        if not self.has_subtests:
            self.passed += 1

    def addFailure(self, test, err):
        super().addFailure(test, err)
        self.fail(test, text_of(err))

    def addError(self, test, err):
        super().addError(test, err)
        self.fail(test, text_of(err))

    def addSkip(self, test, reason):
        """What is skipped shows nothing, and no test here is."""
        super().addSkip(test, reason)
        self.fail(test, f'skipped: {reason}')

    def fail(self, test, text):
        """Counts what failed and reports it at once, for a later one may end the process."""
        self.failed += 1
        print(f'failed: {test.id()}\n{text}', flush=True)


def main(name):
    module = importlib.import_module(f'test_{name}')
    checks = Checks()
    unittest.defaultTestLoader.loadTestsFromModule(module).run(checks)
    if checks.testsRun == 0 and checks.failed == 0:
        print(f'failed: {module.__name__} has no test')
        checks.failed += 1
    print(f'{checks.passed} passed, {checks.failed} failed')
    return 0 if checks.failed == 0 and checks.wasSuccessful() else 1


if __name__ == '__main__':
    sys.exit(main(*sys.argv[1:]))
