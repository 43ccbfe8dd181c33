#!/usr/bin/env python3
"""Times the proofs from nothing: `rt ci --anew` in a clone of what is committed.

usage: proofs.py [--library | NAME..]

Without names it is the whole gate, with --library the crates of the library alone, which `vendor` takes;
with names these crates and those below them. Printed are the minutes, those of all processors together,
and the last line of `rt ci`. It takes as long as the gate, and needs a machine that does nothing else. The
exit status is that of `rt ci`.
"""

import argparse
import pathlib
import resource
import subprocess
import sys
import tempfile
import time

TOP = pathlib.Path(__file__).resolve().parent.parent
END_OF_LIBRARY = "# The library ends here"


def library():
    """The crates above that line."""
    lines = (TOP / "crates.txt").read_text().partition(END_OF_LIBRARY)[0].splitlines()
    return [line.partition(":")[0] for line in lines if ":" in line]


def main():
    arguments = argparse.ArgumentParser(
        description=__doc__, formatter_class=argparse.RawDescriptionHelpFormatter
    )
    arguments.add_argument("--library", action="store_true")
    arguments.add_argument("names", nargs="*", metavar="NAME")
    asked = arguments.parse_args()
    names = library() if asked.library else asked.names
    with tempfile.TemporaryDirectory() as folder:
        subprocess.run(["git", "clone", "--quiet", TOP, folder], check=True)
        start = time.monotonic()
        run = subprocess.run(["rt", "ci", "--anew", *names], cwd=folder, capture_output=True, text=True)
        taken = time.monotonic() - start
    usage = resource.getrusage(resource.RUSAGE_CHILDREN)
    minutes = f"{taken / 60:.0f} minutes, {(usage.ru_utime + usage.ru_stime) / 60:.0f} of a processor"
    print(f"{' '.join(names) or 'the gate'}: {minutes}")
    print((run.stdout + run.stderr).splitlines()[-1])
    sys.exit(run.returncode)


main()
