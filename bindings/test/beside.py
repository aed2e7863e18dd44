#!/usr/bin/env python3
"""Times the calls beside the process, on the same lines: beside.py PROGRAM INDEX ASKED [LINES].

ASKED is the built asked.c. For each verb lines of two terms are drawn, terms and documents with
equal chances, LINES or those of COUNTS. The time of the process is the processor time of `PROGRAM
query INDEX` over those lines, less that of a run without lines, which loads and checks the file; so
it has the reading of the lines and the writing of the replies in it. The time of the library is
that of the calls alone. Each is the least of three rounds, in nanoseconds a line. The table is one
of Markdown. PROGRAM may have arguments of its own, in one word.
"""
import os
import random
import shlex
import subprocess
import sys
import tempfile

import pefidx

ROUNDS = 3
COUNTS = {"next": 200000, "and": 100000, "or": 50000, "top": 50000}


def drawn(index, verb, count):
    """Query lines of a verb."""
    draw = random.Random(1)
    made = []
    for _ in range(count):
        one, other = draw.randrange(index.terms), draw.randrange(index.terms)
        if verb == "next":
            made.append(f"next {one} {draw.randrange(index.documents)}\n")
        elif verb == "top":
            made.append(f"top 10 {one} {other}\n")
        else:
            made.append(f"{verb} {one} {other}\n")
    return "".join(made).encode()


def process_time(words, text):
    """The processor time of a run over this text, in nanoseconds."""
    with tempfile.TemporaryFile() as lines:
        lines.write(text)
        lines.seek(0)
        process = subprocess.Popen(words, stdin=lines, stdout=subprocess.DEVNULL)
        _, status, used = os.wait4(process.pid, 0)
        process.returncode = os.waitstatus_to_exitcode(status)
    if status:
        sys.exit(f"{' '.join(words)}: ended with {process.returncode}")
    return 1e9 * (used.ru_utime + used.ru_stime)


def least(measure):
    return min(measure() for _ in range(ROUNDS))


def main():
    program, path, asked = shlex.split(sys.argv[1]), sys.argv[2], sys.argv[3]
    print("| Line of two terms | Process, ns a line | Library, ns a call |\n|---|---|---|")
    with pefidx.Index(path) as index:
        for verb, count in COUNTS.items():
            count = int(sys.argv[4]) if len(sys.argv) > 4 else count
            text = drawn(index, verb, count)
            for plan, number in pefidx.PLANS.items() if verb == "top" else [("exhaustive", 0)]:
                words = ["iquery", path] if plan == "intervals" else ["query", path, "--plan", plan]
                opened = least(lambda: process_time([*program, *words], b""))
                process = least(lambda: process_time([*program, *words], text)) - opened
                called = least(lambda: float(subprocess.run([asked, path, str(number)], input=text, stdout=subprocess.PIPE, check=True).stdout))
                name = f"`top 10`, {plan}" if verb == "top" else f"`{verb}`"
                print(f"| {name} | {process / count:,.0f} | {called:,.0f} |")


main()
