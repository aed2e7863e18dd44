#!/usr/bin/env python3
"""Tries the server: serving.py PROGRAM INDEX SERVER [LINES], where SERVER is the built c/serve.c. What it replies is held against `PROGRAM query`.

Clients send many lines at once, close their half early, send slowly, send lines that are too long, take no replies, and vanish; more come than
there are places; and the file is replaced while it is served. How it is run is tried by operating.py. PROGRAM may have arguments of its own,
in one word.
"""
import json
import os
import shlex
import shutil
import signal
import socket
import subprocess
import sys
import tempfile
import threading
import time

from server import Server, drawn, line_of, rest, vanish

CLIENTS = 8


def many_lines(server, replies, text):
    wanted, got = replies(text), {}
    threads = [threading.Thread(target=lambda at: got.update({at: server.ask(text)}), args=(at,)) for at in range(CLIENTS)]
    for thread in threads:
        thread.start()
    for thread in threads:
        thread.join()
    assert [got[at] == wanted for at in range(CLIENTS)] == CLIENTS * [True]
    print(f"{CLIENTS} clients at once got the replies of the program to {text.count(10)} lines each")


def odd_clients(server, replies):
    for text in b"", b"or 0", b"\n\n", b"or 0\n next 0 1", b"or 0 1", b"bad":
        assert server.ask(text) == replies(text), text
    for length in 65535, 65536, 65537, 16384, 1000000:
        text = b"or 0" + (length - 4) * b" " + b"\nor 0\n"
        assert server.ask(text) == replies(text), length
    with server.client() as slow:
        for line in b"next 0 0\n", b"or 0 1\n":
            for byte in line:
                slow.sendall(bytes([byte]))
                time.sleep(0.01)
            assert line_of(slow) == replies(line)
    for text in b"", b"or 0", b"or 0\n" * 10000:
        gone = server.client()
        gone.sendall(text)
        vanish(gone)
    assert server.ask(b"or 0\n") == replies(b"or 0\n")
    print("clients that send early ends, slow lines or long ones get what the program replies; those that vanish harm no other")


def bounds(words, path, replies, folder):
    """Two places, and one second."""
    with Server([*words, "-c", "2", "-a", "2", "-i", "1"], path, os.path.join(folder, "few")) as server:
        begun = time.monotonic()
        with server.client() as silent, server.client() as other:
            other.sendall(b"or 0\n")
            assert line_of(other) == replies(b"or 0\n")
            # Both places are taken, so this one waits until a silent one is ended.
            assert server.ask(b"or 0\n") == replies(b"or 0\n") and time.monotonic() - begun > 0.9
            assert silent.recv(1) == b""
        with server.client() as deaf:
            # It takes no replies, so that the server can send none.
            deaf.settimeout(10)
            try:
                while True:
                    deaf.sendall(b"or 0 1 2 3\n" * 1000)
            except (BrokenPipeError, ConnectionResetError):
                pass
        assert server.ask(b"or 0\n") == replies(b"or 0\n")
    print("a third client waits for one of two places, and who sends nothing or takes nothing is ended")


def replaced(words, program, path, folder):
    """The file is replaced by another index, and by none."""
    served = os.path.join(folder, "served")
    one, other = os.path.join(folder, "one"), path
    base = os.path.join(os.path.dirname(os.path.abspath(__file__)), "../../crates/pefidx/data/small")
    subprocess.run([*program, "build", base, one], stdout=subprocess.DEVNULL, check=True)
    of = {name: subprocess.run([*program, "query", name], input=b"next 0 0\nor 0\n", stdout=subprocess.PIPE, check=True).stdout for name in (one, other)}
    assert of[one] != of[other]
    shutil.copy(one, served)
    with Server(words, served, "127.0.0.1:0") as server, server.client() as early:
        early.sendall(b"next 0 0\n")
        assert line_of(early) == of[one].splitlines(keepends=True)[0]
        for name, end in (other, "is served anew\n"), (__file__, "index K"):
            shutil.copy(name, served + "-new")
            os.replace(served + "-new", served)
            server.process.send_signal(signal.SIGHUP)
            server.said(end)
            assert server.ask(b"next 0 0\nor 0\n") == of[other]
        early.sendall(b"next 0 0\nor 0\n")
        early.shutdown(socket.SHUT_WR)
        assert rest(early) == of[other]
    print("each connection gets the new index for its next line, and what is no index is not served")


def main():
    program, path, words = shlex.split(sys.argv[1]), sys.argv[2], [sys.argv[3]]
    count = int(sys.argv[4]) if len(sys.argv) > 4 else 5000

    def replies(text):
        return subprocess.run([*program, "query", path], input=text, stdout=subprocess.PIPE, check=True).stdout

    counts = json.loads(subprocess.run([*program, "inspect", path], stdout=subprocess.PIPE, check=True).stdout)
    text = drawn(counts["documents"], counts["terms"], count, 1)
    with tempfile.TemporaryDirectory() as folder:
        for address in os.path.join(folder, "socket"), "127.0.0.1:0":
            for plan in ("exhaustive", "intervals"):
                with Server([*words, "-p", plan], path, address) as server:
                    many_lines(server, replies, text)
                    odd_clients(server, replies)
        other = os.path.join(folder, "other")
        with open(path, "rb") as file:
            subprocess.run([*program, "migrate" if file.read(9)[8] == 3 else "repack", path, other], check=True)
        with Server(words, other, "127.0.0.1:0") as server:
            many_lines(server, replies, text)
        bounds(words, path, replies, folder)
        replaced(words, program, path, folder)


main()
