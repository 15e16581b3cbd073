"""Counts checks and closes with the line that the gate reads."""
import sys


class Checks:
    def __init__(self):
        self.passed, self.failed = 0, 0

    def check(self, what, holds):
        if holds:
            self.passed += 1
        else:
            self.failed += 1
            print("FAILED: " + what)

    def close(self):
        print("%d passed, %d failed" % (self.passed, self.failed))
        sys.exit(0 if self.failed == 0 and self.passed > 0 else 1)
