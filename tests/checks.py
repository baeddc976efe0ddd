"""What the parts of tests/run share: it runs the program, counts what passed, and tells what failed.

A part is an executable file of tests/parts. It takes the program from PATHWAY, prints a line for each check that failed, and
last `N passed, M failed`. Its status is 0 where all passed, 1 where one failed, and 77 where this machine lacks what it needs:
then its last line says what."""
import os, pathlib, subprocess, sys

TOP = pathlib.Path(__file__).resolve().parent.parent
PROGRAM = os.environ.get("PATHWAY", f"{TOP}/pathway")
# What a page, a deck or a call that hangs is cut off at, in seconds.
LIMIT = 60


def pathway(*words, source=b"", limit=LIMIT):
    """Runs the program on a source, and gives its status and its output. A source is bytes, or the path of a file."""
    given = source if isinstance(source, bytes) else pathlib.Path(source).read_bytes()
    ran = subprocess.run([PROGRAM, *words], input=given, stdout=subprocess.PIPE, stderr=subprocess.DEVNULL, timeout=limit)
    return ran.returncode, ran.stdout.decode(errors="surrogateescape")


class Checks:
    """Counts checks, and tells those that fail."""

    def __init__(self):
        self.passed = self.failed = 0

    def check(self, holds, told):
        if holds:
            self.passed += 1
        else:
            self.failed += 1
            print(told, flush=True)
        return holds

    def same(self, found, wanted, told):
        """Checks that two values are the same, and shows both where they are not."""
        return self.check(found == wanted, f"{told}: found {found!r:.400}, wanted {wanted!r:.400}")

    def end(self):
        print(f"{self.passed} passed, {self.failed} failed")
        sys.exit(1 if self.failed else 0)


def lacking(what):
    """Ends a part that needs what this machine does not have."""
    print(f"{what} is not installed here")
    sys.exit(77)
