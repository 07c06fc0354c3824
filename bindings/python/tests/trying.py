"""What compare.py and compare_package.py share. The first word of either is the program."""

import subprocess
import sys

PROGRAM = sys.argv[1]
compared = failed = 0


def same(found, wanted, about):
    global compared, failed
    compared += 1
    if found != wanted:
        failed += 1
        print(f"{about}: {found!r}, and not {wanted!r}")


def raises(kind, call, about, words=""):
    """Checks that `call` raises an exception of `kind`, with `words` in its text."""
    try:
        same(call(), kind.__name__, about)
    except kind as error:
        same(words in str(error), True, f"{about}: {error}")


def run(*words, given=""):
    """Runs the program. Returns its status and what it writes."""
    done = subprocess.run([PROGRAM, *words], input=given.encode(), stdout=subprocess.PIPE, stderr=subprocess.DEVNULL)
    return done.returncode, done.stdout.decode()


def told(report):
    return (0 if report.accepted else 1), report.text


def ended(what):
    """Says how many comparisons there were. Returns the status to end with."""
    print(f"bindings: {what}: {compared} comparisons, {failed} failed")
    return 1 if failed else 0
