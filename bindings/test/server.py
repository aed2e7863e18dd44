"""A running server, clients of it, and lines to ask it, for the tests of the server."""
import json
import os
import random
import re
import socket
import struct
import subprocess
import threading
import time


class Server:
    """A running server of one file or several, which `with` ends; `address` is where it says that
    it serves."""

    def __init__(self, words, index, address, ready=True, **environment):
        files = [index] if isinstance(index, str) else index
        command, env = [*words, *files, address], {**os.environ, **environment}
        self.process = subprocess.Popen(command, stderr=subprocess.PIPE, text=True, env=env)
        self.address, self.ended, self.log = address, False, []
        if ready:
            self.wait_ready()

    def wait_ready(self):
        self.address = self.said(" is served at ").rsplit(" is served at ", 1)[1].strip()

    def said(self, text):
        """The next line of the log, which has this text."""
        line = self.process.stderr.readline()
        self.log.append(line)
        assert text in line, "".join(self.log)
        return line

    def signal(self, number):
        self.process.send_signal(number)

    def end(self, seconds=60):
        """Ends it by SIGTERM, and tells how long that took."""
        self.ended, begun = True, time.monotonic()
        self.process.terminate()
        status = self.process.wait(seconds)
        took, rest = time.monotonic() - begun, self.process.stderr.read()
        self.process.stderr.close()
        assert status == 0 and "Sanitizer" not in rest, (status, rest)
        assert not ("/" in self.address and os.path.exists(self.address)), "its socket is there"
        return took

    def __enter__(self):
        return self

    def __exit__(self, kind, *_how):
        if kind is not None:
            self.process.kill()
            self.process.wait()
        elif not self.ended:
            self.end()

    def client(self, seconds=60, source=None, address=None):
        return client_of(address or self.address, seconds, source)

    def ask(self, text):
        """All replies to a text, of which a client closes its half once it is sent."""
        with self.client() as to:
            sender = threading.Thread(target=lambda: (to.sendall(text), to.shutdown(socket.SHUT_WR)))
            sender.start()
            got = rest(to)
            sender.join()
            return got

    def status(self, address):
        with self.client(address=address) as to:
            return json.loads(rest(to))

    def memory(self, key):
        """A number of bytes of /proc/PID/status; 0 under a sanitizer, which takes memory itself."""
        if "SANITIZED" in os.environ:
            return 0
        with open(f"/proc/{self.process.pid}/status") as file:
            return 1024 * int(re.search(rf"{key}:\s+(\d+)", file.read())[1])


def client_of(address, seconds=60, source=None):
    if "/" in address:
        made = socket.socket(socket.AF_UNIX)
        made.settimeout(seconds)
        made.connect(address)
        return made
    host, port = address.rsplit(":", 1)
    return socket.create_connection((host.strip("[]"), int(port)), seconds, source and (source, 0))


def listens(address):
    """Whether somebody listens there."""
    try:
        client_of(address).close()
    except OSError:
        return False
    return True


def rest(client):
    """What comes until the other side has closed."""
    got = []
    while piece := client.recv(65536):
        got.append(piece)
    return b"".join(got)


def line_of(client):
    got = b""
    while not got.endswith(b"\n"):
        piece = client.recv(1)
        assert piece, got
        got += piece
    return got


def is_closed(client):
    """Whether the other side closes at once, with nothing to read."""
    try:
        return client.recv(1) == b""
    except ConnectionResetError:
        return True


def vanish(client):
    """Closes a connection at once: what was not read is lost, and the other side is told of a reset."""
    client.setsockopt(socket.SOL_SOCKET, socket.SO_LINGER, struct.pack("ii", 1, 0))
    client.close()


def until(holds, seconds=10):
    """Waits until something holds."""
    end = time.monotonic() + seconds
    while not holds():
        assert time.monotonic() < end, "it does not come to hold"
        time.sleep(0.01)


def drawn(documents, terms, count, seed):
    """Query lines of all verbs, some of which break a rule."""
    draw = random.Random(seed)
    made = []
    for _ in range(count):
        lists = draw.choice([1, 2, 2, 3, 5])
        asked = [draw.randrange(terms + (draw.randrange(50) == 0)) for _ in range(lists)]
        verb = draw.choice(["next", "and", "or", "top", "top", "bad"])
        if verb == "next":
            asked = [asked[0], draw.randrange(documents + 2)]
        elif verb == "top":
            weighted = (f"{term}*{draw.choice([1, 7])}" for term in asked)
            asked = [draw.choice([0, 1, 10, 1000]), *weighted]
        made.append(" ".join(map(str, [verb, *asked])).encode() + b"\n")
    return b"".join(made)
