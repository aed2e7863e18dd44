#!/usr/bin/env python3
"""Tries the bench: bench.py BENCH SLOW, where SLOW is the bench linked with slow.c."""
import json
import os
import subprocess
import sys
import tempfile

import pefidx

BENCH, SLOW = map(os.path.abspath, sys.argv[1:3])
LINES = "or 0 1\nnext 0 1\ntop 2 0*3 1\nand 0 0\nbad\ntop 1 9\nor 1"


def told(*words, program=BENCH, status=0, **environment):
    ran = subprocess.run([program, *words], stdout=subprocess.PIPE, env={**os.environ, **environment})
    assert ran.returncode == status, ran
    return json.loads(ran.stdout)


def refused(*words, status=1):
    ran = subprocess.run([BENCH, *words], capture_output=True, text=True)
    assert ran.returncode == status and ran.stdout == "" and ran.stderr, ran
    return ran.stderr


def main():
    pefidx.build([([0, 2], [2, 1]), ([2], [4])], "index")
    with open("lines", "w") as file:
        file.write(LINES)
    for threads in "1", "4":
        got = told("-t", threads, "-r", "3", "index", "lines")
        assert (got["index"], got["bytes"], got["documents"], got["terms"]) == ("index", os.path.getsize("index"), 3, 2)
        assert (got["lines"], got["postings"], got["threads"], got["rounds"]) == (7, 3 + 2 + 3 + 4 + 0 + 0 + 1, int(threads), 3)
        assert got["open_ms"] > 0 and got["same"] is True and [of["plan"] for of in got["plans"]] == list(pefidx.PLANS)
        for of in got["plans"]:
            assert 0 < of["q50"] <= of["q90"] <= of["q95"] <= of["q99"] <= of["q999"] and 0 < of["avg"] <= of["q999"] and of["lines_a_second"] > 0
    # Each line by each plan once untimed, then in each round; all plans in turn.
    got = told("-r", "2", "index", "lines", program=SLOW, CALLS="calls", REPLY="3")
    assert os.path.getsize("calls") == 7 * 4 * 3 and all(of["avg"] > 2900 for of in got["plans"])
    assert all(of["lines_a_second"] < 340 for of in got["plans"])
    for plan in pefidx.PLANS.values():
        assert told("-r", "1", "index", "lines", program=SLOW, status=1, DIFFERS=str(plan))["same"] is False
    for words in [], ["index"], ["index", "lines", "x"], ["-x", "index", "lines"], ["-t", "0", "index", "lines"], ["-r", "5x", "index", "lines"]:
        refused(*words, status=2)
    assert "No such file" in refused("index", "none") and "none: No such file" in refused("none", "lines")
    open("empty", "w").close()
    assert "no line" in refused("index", "empty") and "lines: index K1 term 0 part 0" in refused("lines", "lines")
    with open("/dev/full", "w") as full:
        assert subprocess.run([BENCH, "index", "lines"], stdout=full, stderr=subprocess.DEVNULL).returncode == 1
    print("the bench tells what it is to tell, and replies that differ")


with tempfile.TemporaryDirectory() as folder:
    os.chdir(folder)
    main()
    os.chdir("/")
