#!/usr/bin/env python3
"""Tries how the server is run: operating.py PROGRAM SERVER SLOW [PART..], where SLOW is the server linked with slow.c.

Each part tries one thing that whoever runs a server relies on, over indexes that the package builds. PROGRAM may have arguments of its own.
Times have the slack of a machine that has much else to do.
"""
import json
import os
import shlex
import shutil
import signal
import socket
import struct
import subprocess
import sys
import threading
import time

import pefidx
from parts import run_parts
from server import Server, client_of, is_closed, line_of, listens, rest, until

PROGRAM, SERVER, SLOW = shlex.split(sys.argv[1]), *map(os.path.abspath, sys.argv[2:4])
PROGRAM[0] = os.path.abspath(PROGRAM[0]) if "/" in PROGRAM[0] else PROGRAM[0]
LONG = 300_000
REPLY = b"%d %s\n" % (LONG, b" ".join(b"%d" % doc for doc in range(LONG)))
TOP = b" ".join(b"%d:1" % doc for doc in range(90000)) + b"\n"
ANY = "127.0.0.1:0"


def small(path="small", freq=1):
    """An index of three documents and two lists; the first frequency tells which it is."""
    pefidx.build([([0, 2], [freq, 1]), ([2], [4])], path)
    return path


def large():
    """An index with one list of many documents: 2 MB as a reply."""
    if not os.path.exists("large"):
        pefidx.build([(range(LONG), [1] * LONG), ([5], [1])], "large")
    return "large"


def refused(*words, status=1):
    """What a server says that does not start."""
    ran = subprocess.run([SERVER, *words], stderr=subprocess.PIPE, text=True, timeout=10)
    assert ran.returncode == status and ran.stderr.startswith("pefidx-serve: "), ran
    return ran.stderr


def replace(path, freq):
    small("new", freq)
    os.replace("new", path)


def signals_wait_for_the_first_check():
    with Server([SLOW], small(), ANY, ready=False, CHECK="600") as server:
        time.sleep(0.2)
        server.signal(signal.SIGHUP)
        server.wait_ready()
        server.said("is served anew")
        assert server.ask(b"next 0 0\n") == b"0 1\n"


def a_check_does_not_delay_the_end():
    with Server([SLOW], small(), ANY, ready=False, CHECK="8000") as server:
        time.sleep(0.2)
        assert server.end() < 5
    with Server([SLOW, "-d", "1"], small(), ANY, CHECK="4000") as server:
        server.signal(signal.SIGHUP)
        time.sleep(0.1)
        assert server.end() < 3


def the_end_drains():
    with Server([SLOW], small(), ANY, REPLY="150") as server, server.client() as asks, server.client() as silent:
        asks.sendall(b"next 0 0\nnext 0 1\nnext 1 0\nnext 0 ")
        time.sleep(0.1)
        assert 0.2 < server.end() < 4
        assert rest(asks) == b"0 1\n2 1\n2 4\n" and is_closed(silent)
        try:
            server.client()
        except ConnectionRefusedError:
            pass
        else:
            raise AssertionError("a connection is taken at the end")
    for words, least, most in (["-d", "1"], 0.9, 4), (["-d", "0"], 0, 4):
        with Server([SLOW, *words], small(), ANY, REPLY="6000") as server, server.client() as asks:
            asks.sendall(b"next 0 0\n")
            time.sleep(0.1)
            assert least <= server.end() < most
    with Server([SLOW], small(), ANY, REPLY="6000") as server, server.client() as asks:
        asks.sendall(b"next 0 0\n")
        time.sleep(0.1)
        threading.Timer(0.3, lambda: server.signal(signal.SIGTERM)).start()
        assert server.end() < 4


def systemd_is_told():
    with socket.socket(socket.AF_UNIX, socket.SOCK_DGRAM) as told:
        told.bind("notified")
        told.settimeout(10)
        begun = time.monotonic()
        with Server([SLOW], small(), ANY, ready=False, CHECK="400", NOTIFY_SOCKET=os.path.abspath("notified")) as server:
            assert told.recv(100) == b"READY=1" and time.monotonic() - begun > 0.4
            server.wait_ready()
            server.signal(signal.SIGHUP)
            assert told.recv(100).startswith(b"RELOADING=1\nMONOTONIC_USEC=") and told.recv(100) == b"READY=1"
            server.end()
            assert told.recv(100) == b"STOPPING=1"


def a_log_that_nobody_reads():
    reads, writes = os.pipe()
    server = subprocess.Popen([SERVER, small(), "./log.socket"], stderr=writes)
    os.close(writes)
    assert os.read(reads, 1000).endswith(b"is served at ./log.socket\n")
    os.close(reads)
    server.send_signal(signal.SIGHUP)
    time.sleep(0.2)
    with client_of("./log.socket") as asks:
        asks.sendall(b"next 0 0\n")
        assert line_of(asks) == b"0 1\n"
    server.terminate()
    assert server.wait(10) == 0


def a_path_that_became_a_pipe():
    with Server([SERVER], small("served"), ANY) as server:
        os.unlink("served")
        os.mkfifo("served")
        server.signal(signal.SIGHUP)
        server.said("served: it is no regular file")
        assert server.ask(b"next 0 0\n") == b"0 1\n"
        replace("served", 7)
        server.signal(signal.SIGHUP)
        server.said("is served anew")
        assert server.ask(b"next 0 0\n") == b"0 7\n"


def sockets_of_others():
    path = os.path.abspath("a.socket")
    left = socket.socket(socket.AF_UNIX)
    left.bind(path)
    left.close()
    with Server([SERVER], small(), path) as server:
        assert server.ask(b"next 0 0\n") == b"0 1\n"
        # One that listens, but takes none; a whole queue of connections waits.
        assert "Address already in use" in refused(small(), path)
        assert server.ask(b"next 0 0\n") == b"0 1\n"
        os.unlink(path)
        with Server([SERVER], small(), path) as other:
            server.address = ANY
            server.end()
            assert other.ask(b"next 0 0\n") == b"0 1\n"
    for full in (False, True):
        with socket.socket(socket.AF_UNIX) as listens:
            listens.bind(path)
            listens.listen(0)
            waiting = [client_of(path) for _ in range(full)]
            assert "Address already in use" in refused(small(), path) and os.path.exists(path)
            for each in waiting:
                each.close()
        os.unlink(path)
    small("a.socket")
    assert "Address already in use" in refused(small(), path) and os.path.getsize("a.socket") > 0
    os.unlink(path)


def addresses():
    with Server([SERVER], small(), ":0") as server:
        port = server.address.rsplit(":", 1)[1]
        for host in "127.0.0.1", "[::1]":
            with client_of(f"{host}:{port}") as asks:
                asks.sendall(b"next 0 0\n")
                assert line_of(asks) == b"0 1\n"
    with Server([SERVER], small(), "[::1]:0") as server:
        assert server.address.startswith("[::1]:") and server.ask(b"next 0 0\n") == b"0 1\n"
    with Server([SERVER], small(), "localhost:0") as server:
        assert server.ask(b"next 0 0\n") == b"0 1\n"
        assert "Address already in use" in refused(small(), server.address)
    assert "in brackets" in refused(small(), "::1:7070")
    for port in "99999", "65536", "70x", "-1", "", " 1":
        assert "0 to 65535" in refused(small(), "127.0.0.1:" + port), port
    assert "HOST:PORT" in refused(small(), "nowhere")
    assert "No such file" in refused(small(), "./none/socket") and "too long" in refused(small(), "/srv/" + 200 * "x")
    assert "\n" not in refused(small(), "none.invalid:1").strip()


def numbers_are_whole():
    for letter in "caidrm":
        for number in "x", "5x", "-1", "", " 5", "99999999999999999999", "1e3":
            assert f"-{letter} {number}: " in refused(f"-{letter}", number, small(), ANY, status=2)
    for number in "c0", "a0", "i0", "r0", "m0":
        assert "no number from 1" in refused("-" + number, small(), ANY, status=2)
    for plan in "x", "0", "2", "", "WAND":
        assert f"-p {plan}: " in refused("-p", plan, small(), ANY, status=2)
    for words in [], [small()], [*[small()] * 65, ANY], ["-x", small(), ANY], ["-c"]:
        assert subprocess.run([SERVER, *words], stderr=subprocess.DEVNULL).returncode == 2
    for plan in pefidx.PLANS:
        with Server([SERVER, "-p", plan], small(), ANY) as server:
            assert server.ask(b"top 2 0*3\n") == b"2 0:3 2:3\n"


def causes_are_told():
    assert "No such file or directory" in refused("none", ANY) and "no regular file" in refused(".", ANY)
    with open(small(), "rb") as file:
        whole = file.read()
    for at in [None, *range(0, len(whole), 5)]:
        broken = whole[:-1] if at is None else whole[:at] + bytes([whole[at] ^ 0x41]) + whole[at + 1 :]
        with open("broken", "wb") as file:
            file.write(broken)
        said = subprocess.run([*PROGRAM, "inspect", "broken"], capture_output=True, text=True)
        if said.returncode:
            assert refused("broken", ANY) == f"pefidx-serve: broken: {said.stderr.splitlines()[0]}\n", (at, said.stderr)
    open("empty", "wb").close()
    assert "index K1 term 0 part 0" in refused("empty", ANY)
    if os.getuid():
        os.chmod("broken", 0)
        assert "Permission denied" in refused("broken", ANY)


def kept_connections_see_the_new_file():
    with Server([SERVER], small("served"), ANY) as server:
        kept = [server.client() for _ in range(20)]
        for freq in range(1, 30):
            for each in kept[: freq % 20]:
                each.sendall(b"next 0 0\n")
                assert line_of(each) == b"0 %d\n" % freq
            replace("served", freq + 1)
            server.signal(signal.SIGHUP)
            server.said("is served anew")
        with open(f"/proc/{server.process.pid}/maps") as file:
            # No old file is mapped for a connection that waits.
            until(lambda: sum("served" in line for line in file.seek(0) or file) <= 1)
        for each in kept:
            each.close()


def replies_do_not_wait_long():
    with Server([SLOW], small(), ANY, REPLY="3") as server, server.client() as asks:
        begun = time.monotonic()
        asks.sendall(b"next 0 0\n" * 1000)
        first = asks.recv(1)
        assert time.monotonic() - begun < 1.5, time.monotonic() - begun
        asks.shutdown(socket.SHUT_WR)
        assert first + rest(asks) == b"0 1\n" * 1000 and time.monotonic() - begun > 3
    # Many replies are sent together.
    with Server([SERVER], small(), ANY) as server, server.client() as asks:
        asks.sendall(b"next 0 0\n" * 1000)
        asks.shutdown(socket.SHUT_WR)
        assert rest(asks) == b"0 1\n" * 1000 and segments_of(asks) < 100, segments_of(asks)


def segments_of(client):
    """How many segments with data have come (tcpi_data_segs_in)."""
    return struct.unpack_from("I", client.getsockopt(socket.IPPROTO_TCP, socket.TCP_INFO, 256), 152)[0]


def long_replies_are_made_once():
    if os.path.exists("calls"):
        os.unlink("calls")
    with Server([SLOW], large(), ANY, CALLS="calls") as server:
        for text in b"or 0\n", b"and 0\n", b"or 0 0 1\n":
            assert server.ask(text) == REPLY
        top = server.ask(b"top 1000000 0 1\n")
        assert top.startswith(b"%d 5:2 0:1 1:1 " % LONG) and top.count(b" ") == LONG
        assert server.ask(b"top 100000 0\nnext 0 7\n").endswith(b" 99999:1\n7 1\n")
    assert os.path.getsize("calls") == 6
    # Of several files K is a bound of what they have together.
    os.unlink("calls")
    both = b"%d %s\n" % (2 * LONG, b" ".join(b"%d" % doc for doc in range(2 * LONG)))
    with Server([SLOW, "-r", "20"], [large(), large()], ANY, CALLS="calls") as server:
        assert server.ask(b"or 0\n") == server.ask(b"and 0\n") == both
        assert server.ask(b"top 600000 0\n").startswith(b"%d 0:1 1:1 " % (2 * LONG))
    with Server([SLOW, "-r", "3"], [large()] * 8, ANY, CALLS="calls") as server:
        assert server.ask(b"or 0\ntop 90000 0\n") == b"bad room\n90000 " + TOP
    assert os.path.getsize("calls") == 4


def long_replies_are_refused():
    with Server([SERVER, "-r", "1"], large(), ANY) as server:
        assert server.ask(b"or 1\nor 0\ntop 3 0\nor 0") == b"1 5\nbad room\n3 0:1 1:1 2:1\nbad room\n"


def memory_of_long_replies_is_bounded():
    clients, got = 16, []

    def ask():
        with server.client() as asks:
            asks.sendall(b"or 0\n")
            asks.shutdown(socket.SHUT_WR)
            got.append(len(rest(asks)))

    with Server([SERVER, "-m", "16", "-i", "600"], large(), ANY) as server:
        assert server.ask(b"or 1\n") == b"1 5\n"
        before = server.memory("RssAnon")
        threads = [threading.Thread(target=ask) for _ in range(clients)]
        for thread in threads:
            thread.start()
        for thread in threads:
            thread.join()
        assert got == clients * [len(REPLY)], got
        # The peak has the file in it.
        peak = server.memory("VmHWM") - os.path.getsize("large") - before
        assert peak < 22 << 20, peak
        until(lambda: server.memory("RssAnon") - before < 4 << 20)


def deaf_clients_keep_no_memory():
    """Clients that take nothing of long replies leave the memory to others, long before they are ended for themselves."""
    with Server([SERVER, "-m", "8"], large(), "./deaf") as server:
        deaf = [server.client() for _ in range(6)]
        for each in deaf:
            each.sendall(b"or 0\n")
        time.sleep(0.5)
        begun = time.monotonic()
        assert server.ask(b"or 0\n") == REPLY and time.monotonic() - begun < 30
        for each in deaf:
            each.close()


def slow_clients_are_ended():
    """Those that send or take byte by byte."""
    with Server([SERVER, "-i", "1"], large(), "./slow") as server:
        for trickles in (True, False):
            with server.client() as client:
                begun = time.monotonic()
                try:
                    while time.monotonic() - begun < 6:
                        client.sendall(b"o" if trickles else b"")
                        time.sleep(0.2)
                        client.setblocking(False)
                        try:
                            if client.recv(1) == b"":
                                break
                        except BlockingIOError:
                            client.setblocking(True)
                    took = time.monotonic() - begun
                except (BrokenPipeError, ConnectionResetError):
                    took = time.monotonic() - begun
                assert 0.8 < took < 5, took
        with server.client() as client:
            client.sendall(b"or 0\n")
            got = 0
            try:
                # Less than a megabyte in a second, though more than a buffer of the system.
                while part := len(client.recv(24000)):
                    got += part
                    time.sleep(0.05)
            except ConnectionResetError:
                pass
            assert got < len(REPLY), got
        assert server.ask(b"or 1\n") == b"1 5\n"


def one_machine_leaves_places():
    with Server([SERVER, "-c", "4", "-a", "2", "-s", "./status"], small(), ANY) as server:
        silent = [server.client() for _ in range(2)]
        until(lambda: server.status("./status")["connections"] == 2)
        with server.client() as third:
            assert is_closed(third)
        with server.client(source="127.0.0.2") as other:
            other.sendall(b"next 0 0\n")
            assert line_of(other) == b"0 1\n"
        silent[0].close()
        until(lambda: server.status("./status")["connections"] == 1)
        assert server.ask(b"next 0 0\n") == b"0 1\n"
        silent[1].close()
    with Server([SERVER, "-c", "4", "-s", "./status"], small(), "./local") as server:
        silent = [server.client() for _ in range(3)]
        assert server.ask(b"next 0 0\n") == b"0 1\n"
        for each in silent:
            each.close()


def the_status_is_told():
    with Server([SLOW, "-c", "1", "-s", "./status"], small('the "served"\t'), ANY, ready=False, CHECK="2000") as server:
        until(lambda: listens("./status"))
        assert server.status("./status")["state"] == "checking"
        server.wait_ready()
        size, written = os.path.getsize('the "served"\t'), os.stat('the "served"\t').st_mtime
        assert server.ask(b"next 0 0\n" * 99 + b"or 0") == b"0 1\n" * 99 + b"2 0 2\n"
        with server.client() as only:
            only.sendall(b"next 0 0\n")
            line_of(only)
            told = server.status("./status")
            assert (told["state"], told["index"], told["bytes"]) == ("serving", 'the "served"\t', size)
            assert (told["documents"], told["terms"], told["connections"], told["reloads"]) == (3, 2, 1, 0)
            assert told["lines"] == told["late_lines"] == 101 and "refused" not in told
            assert told["written"] == time.strftime("%Y-%m-%dT%H:%M:%SZ", time.gmtime(written))
            assert 0 <= told["p50_us"] <= told["p99_us"] <= told["p999_us"] < 1e6
            replace('the "served"\t', 7)
            server.signal(signal.SIGHUP)
            until(lambda: server.status("./status")["reloads"] == 1)
            shutil.copy(__file__, "new")
            os.truncate("new", 800)
            os.replace("new", 'the "served"\t')
            server.signal(signal.SIGHUP)
            until(lambda: "refused" in server.status("./status"))
            told = server.status("./status")
            assert told["refusal"].startswith("index K") and abs(time.time() - time.mktime(time.strptime(told["refused"], "%Y-%m-%dT%H:%M:%SZ")) + time.timezone) < 60
            assert told["reloads"] == 1
    assert not os.path.exists("status")
    with Server([SLOW, "-s", "./status"], small(), ANY, REPLY="20") as server:
        server.ask(b"next 0 0\n" * 20)
        told = server.status("./status")
        assert 18e3 < told["p50_us"] <= told["p999_us"] < 4e6, told
        with server.client() as asks:
            asks.sendall(b"next 0 0\n" * 40)
            time.sleep(0.1)
            server.signal(signal.SIGTERM)
            until(lambda: server.status("./status")["state"] == "ending")
            assert rest(asks) == b"0 1\n" * 40
    assert "Address already in use" in status_is_taken()


def status_is_taken():
    with socket.socket() as other:
        other.bind(("127.0.0.1", 0))
        other.listen()
        return refused("-s", "127.0.0.1:%d" % other.getsockname()[1], small(), ANY)


def files_are_replaced_under_load():
    """Clients of all kinds while the file is replaced: every reply is one of the file before or after, and memory stays."""
    stop, wrong = threading.Event(), []

    def ask():
        with server.client() as client:
            last = 1
            while not stop.is_set():
                client.sendall(b"next 0 0\nor 0\nnext 0 0\n")
                first, middle, second = (line_of(client) for _ in range(3))
                if middle != b"2 0 2\n" or not last <= int(first[2:]) <= int(second[2:]):
                    wrong.append((last, first, second))
                last = int(second[2:])

    with Server([SERVER], small("served"), ANY) as server:
        threads = [threading.Thread(target=ask) for _ in range(4)]
        for thread in threads:
            thread.start()
        for freq in range(2, 60):
            replace("served", freq)
            server.signal(signal.SIGHUP)
            server.said("is served anew")
            if freq == 20:
                before = server.memory("RssAnon")
        assert server.memory("RssAnon") - before < 2 << 20
        stop.set()
        for thread in threads:
            thread.join()
        assert not wrong, wrong[:3]
        assert server.ask(b"next 0 0\n") == b"0 59\n"


PARTS = [
    signals_wait_for_the_first_check, a_check_does_not_delay_the_end, the_end_drains, systemd_is_told, a_log_that_nobody_reads,
    a_path_that_became_a_pipe, sockets_of_others, addresses, numbers_are_whole, causes_are_told, kept_connections_see_the_new_file,
    replies_do_not_wait_long, long_replies_are_made_once, long_replies_are_refused, memory_of_long_replies_is_bounded, deaf_clients_keep_no_memory,
    slow_clients_are_ended, one_machine_leaves_places, the_status_is_told, files_are_replaced_under_load,
]


run_parts(PARTS, sys.argv[4:], "the server is run as its man page says")
