#!/usr/bin/env python3
"""Soaks a server: soak.py PROGRAM INDEX SERVER SECONDS [EVERY [FILES]].

Clients of all kinds ask it, while its file is replaced each EVERY seconds, else 20, and every
fourth time by one that is no index. Each reply is to be that of `PROGRAM query` over a file that
was served at some time from the sending of its line to its reply; the server's memory, threads and
open files are to stay. With FILES above 1 so many are served as one, of which the first is
replaced, and each reply is that of `PROGRAM segments`. PROGRAM may have arguments of its own, in
one word.
"""
import json
import os
import random
import shlex
import shutil
import signal
import subprocess
import sys
import tempfile
import threading
import time

import pefidx
from server import Server, drawn, until, vanish

LINES, IDLE, OF_KIND = 500, 20, 2


class Served:
    """Which file was served when. While one takes the place of another both are."""

    def __init__(self):
        self.spans = [(0, 0.0, float("inf"))]

    def begins(self, file):
        self.spans = [*self.spans[-8:], (file, time.monotonic(), float("inf"))]

    def is_alone(self):
        """The file of last is the only one from now on."""
        file, begun, _ = self.spans[-2]
        self.spans = [*self.spans[:-2], (file, begun, time.monotonic()), self.spans[-1]]

    def between(self, sent, got):
        return {file for file, begun, ended in self.spans if begun <= got and sent <= ended}


class Soak:
    """What clients share: lines, with the reply to each of them by each file, and what was seen."""

    def __init__(self, server, lines, replies):
        self.server, self.lines, self.replies = server, lines, replies
        self.served, self.over, self.lock = Served(), threading.Event(), threading.Lock()
        self.wrong, self.answered = [], {}

    def check(self, kind, numbers, got, sent):
        """Holds the replies to these lines, which were sent then, against those of the files."""
        may = self.served.between(sent, time.monotonic())
        for number, reply in zip(numbers, got):
            if all(reply != self.replies[file][number] for file in may):
                self.wrong.append((kind, self.lines[number], reply[:80], sorted(may)))
                self.over.set()
        if len(got) != len(numbers):
            self.wrong.append((kind, len(numbers), len(got)))
            self.over.set()
        with self.lock:
            self.answered[kind] = self.answered.get(kind, 0) + len(got)

    def text(self, numbers):
        return b"".join(self.lines[number] for number in numbers)

    def some(self, draw, most):
        return [draw.randrange(LINES) for _ in range(1 + draw.randrange(most))]


def one_by_one(soak, draw):
    with soak.server.client() as client, client.makefile("rb") as replies:
        for _ in range(500):
            numbers, sent = soak.some(draw, 1), time.monotonic()
            client.sendall(soak.text(numbers))
            soak.check("one by one", numbers, [replies.readline()], sent)
            if soak.over.is_set():
                return


def many_at_once(soak, draw):
    numbers, sent = soak.some(draw, 400), time.monotonic()
    got = soak.server.ask(soak.text(numbers))
    soak.check("many at once", numbers, got.splitlines(keepends=True), sent)


def by_and_by(soak, draw):
    with soak.server.client() as client, client.makefile("rb") as replies:
        for number in soak.some(draw, 10):
            line, at = soak.lines[number], 0
            while at < len(line):
                piece, sent = line[at : at + 1 + draw.randrange(10)], time.monotonic()
                client.sendall(piece)
                at += len(piece)
                time.sleep(0.001)
            soak.check("by and by", [number], [replies.readline()], sent)


def keeps_waiting(soak, draw):
    """A connection of a pool, which asks now and then."""
    with soak.server.client() as client, client.makefile("rb") as replies:
        for _ in range(10):
            numbers, sent = soak.some(draw, 3), time.monotonic()
            client.sendall(soak.text(numbers))
            soak.check("now and then", numbers, [replies.readline() for _ in numbers], sent)
            if soak.over.wait(draw.random() * IDLE / 4):
                return


def sends_nothing(soak, draw):
    begun = time.monotonic()
    with soak.server.client() as client:
        client.sendall(b"or 0"[: draw.randrange(5)])
        try:
            while client.recv(100):
                pass
        except ConnectionResetError:
            pass
    assert time.monotonic() - begun > IDLE - 1, "a silent client is ended at once"


def goes_away(soak, draw):
    client = soak.server.client()
    client.sendall(soak.text(soak.some(draw, 50)))
    vanish(client)
    soak.over.wait(0.01)


def takes_nothing(soak, draw):
    with soak.server.client(seconds=1) as client:
        try:
            while not soak.over.is_set():
                client.sendall(soak.text(range(LINES)))
        except (TimeoutError, BrokenPipeError, ConnectionResetError):
            pass


KINDS = [
    one_by_one, many_at_once, by_and_by, keeps_waiting, sends_nothing, goes_away, takes_nothing
]


def asks(soak, kind, seed):
    draw = random.Random(seed)
    try:
        while not soak.over.is_set():
            kind(soak, draw)
    except BaseException as error:
        soak.wrong.append((kind.__name__, repr(error)))
        soak.over.set()
        raise


def files_of(program, path, lines, others):
    """Three indexes of as many documents and terms, and the replies that each gives, with others
    behind it."""
    names = [path, "raised", "turned"]
    with pefidx.Index(path) as index:
        sizes = [index.size_of(doc) for doc in range(index.documents)]
        raised = ((docs, [freq + 1 for freq in freqs]) for docs, freqs in index)
        pefidx.build(raised, names[1], sizes)
        last = index.terms - 1
        pefidx.build((index[last - term] for term in range(index.terms)), names[2], sizes)
    replies = []
    for name in names:
        words = [*program, *(["segments", name, *others] if others else ["query", name])]
        ran = subprocess.run(words, input=b"".join(lines), stdout=subprocess.PIPE, check=True)
        replies.append(ran.stdout.splitlines(keepends=True))
    return names, replies


def replaced(soak, names, count):
    """Serves the next file, or tries one that is none."""
    is_index = count % 4 != 3
    file = (soak.served.spans[-1][0] + 1) % len(names)
    shutil.copy(names[file] if is_index else __file__, "new")
    os.replace("new", "served")
    if is_index:
        soak.served.begins(file)
    soak.server.signal(signal.SIGHUP)
    soak.server.said("is served anew" if is_index else "index K")
    if is_index:
        soak.served.is_alone()
    return is_index


def held(server):
    """Bytes of memory, threads and open files."""
    with open(f"/proc/{server.process.pid}/status") as file:
        threads = int(file.read().split("Threads:")[1].split()[0])
    files = len(os.listdir(f"/proc/{server.process.pid}/fd"))
    return server.memory("RssAnon"), threads, files


def watched(soak, names, seconds, every):
    """Replaces files until the end, and gives what the server held, each second, and the counts."""
    begun, samples, done = time.monotonic(), [], [0, 0]
    while not soak.over.wait(1) and time.monotonic() - begun < seconds:
        samples.append(held(soak.server))
        if time.monotonic() - begun > every * (1 + sum(done)):
            done[replaced(soak, names, sum(done))] += 1
    return samples, done


def soaked(server, lines, replies, names, seconds, every):
    soak = Soak(server, lines, replies)
    of = [(kind, seed) for kind in KINDS for seed in range(OF_KIND)]
    threads = [threading.Thread(target=asks, args=(soak, *each), daemon=True) for each in of]
    for thread in threads:
        thread.start()
    try:
        samples, (refused, served) = watched(soak, names, seconds, every)
    finally:
        soak.over.set()
    for thread in threads:
        thread.join(60)
    assert not soak.wrong, soak.wrong[:3]
    assert len(soak.answered) == 4, "each kind that reads replies has some"
    told = server.status("./status")
    assert told["reloads"] == served and ("refused" in told) == (refused > 0), told
    assert told["lines"] >= sum(soak.answered.values()), told
    return soak, samples, refused, served


def of_quarters(samples):
    """The greatest in each quarter of the time."""
    size = max(1, len(samples) // 4)
    return [max(samples[at * size : (at + 1) * size]) for at in range(4)]


def stays(server, before, samples):
    """Once all clients have gone threads and files are those from before them, and memory is about
    that. While they ask it has no more in the second half than in the first: each connection may
    take 200 KB. Gives what was held."""
    until(lambda: held(server)[1:] == before[1:], 60)
    memory, threads, files = map(of_quarters, zip(*samples))
    at_end = held(server)[0]
    assert at_end < before[0] + (8 << 20), (before[0], at_end)
    assert max(memory[2:]) < max(memory[:2]) + (16 << 20), memory
    counts = {"memory": memory, "threads": threads, "files": files}
    return {**counts, "memory_before": before[0], "memory_at_end": at_end}


def main():
    program, path = shlex.split(sys.argv[1]), os.path.abspath(sys.argv[2])
    server, seconds = os.path.abspath(sys.argv[3]), float(sys.argv[4])
    every = float(sys.argv[5]) if len(sys.argv) > 5 else 20
    others = [path] * (int(sys.argv[6]) - 1 if len(sys.argv) > 6 else 0)
    program[0] = os.path.abspath(program[0]) if "/" in program[0] else program[0]
    with tempfile.TemporaryDirectory() as folder:
        os.chdir(folder)
        with pefidx.Index(path) as index:
            text = drawn(index.documents * (1 + len(others)), index.terms, LINES, 1)
        lines = text.splitlines(keepends=True)
        names, replies = files_of(program, path, lines, others)
        shutil.copy(path, "served")
        words = [server, "-i", str(IDLE), "-s", "./status"]
        with Server(words, ["served", *others], "127.0.0.1:0") as running:
            before = held(running)
            given = soaked(running, lines, replies, names, seconds, every)
            soak, samples, refused, served = given
            until(lambda: running.status("./status")["connections"] == 0, 60)
            with open(f"/proc/{running.process.pid}/maps") as file:
                until(lambda: sum("served" in line for line in file.seek(0) or file) <= 1)
            told = {
                "seconds": seconds, "answered": soak.answered, "served": served,
                "refused": refused, **stays(running, before, samples),
            }
        os.chdir("/")
    print(json.dumps(told))
    print("the server was soaked: each reply is that of a file that was served, and memory stays")


main()
