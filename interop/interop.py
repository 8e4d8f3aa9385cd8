"""Gives what our programs send to a receiver of Qpid Proton, and prints what it made of each delivery. The status is 1 where one is not as
it must be."""
import sys
import tempfile
from pathlib import Path

import returning
import scenario
import sweeping
import whole
from table import show


def main():
    with tempfile.TemporaryDirectory() as folder:
        rows = list(whole.all_rows(Path(folder)))
        if scenario.is_built():
            rows += [*returning.all_rows(Path(folder)), *sweeping.all_rows(Path(folder))]
        else:
            print("no links that come back: %s is not there" % scenario.PROGRAM, file=sys.stderr)
    sys.exit(1 if show(rows) else 0)


main()
