"""Runs the parts of a test."""
import os
import sys
import tempfile


def run_parts(parts, wanted, told):
    """Runs the parts of these names, or all, in one empty folder, and prints what holds and how many were tried."""
    tries = [part for part in parts if not wanted or part.__name__ in wanted]
    with tempfile.TemporaryDirectory() as folder:
        os.chdir(folder)
        for part in tries:
            try:
                part()
            except BaseException:
                print("wrong:", part.__name__, file=sys.stderr)
                raise
        os.chdir("/")
    print(f"{told} ({len(tries)} tries)")
