#!/usr/bin/env python3
"""Tries how `pefidx.build` writes its file: as `pefidx build` does (docs/COMMANDS.md, "How files are replaced"). What only root can try is left
out where another user runs it."""

import os
import stat
import subprocess
import sys
import tempfile
import threading

import pefidx

LISTS = [([0, 2], [2, 1]), ([2], [4])]


def built():
    """The bytes of the index."""
    with tempfile.TemporaryDirectory() as folder:
        path = os.path.join(folder, "x")
        pefidx.build(LISTS, path)
        return read(path)


def read(path):
    with open(path, "rb") as file:
        return file.read()


def make(path, text=b"old"):
    with open(path, "wb") as file:
        file.write(text)


def fails(path, kind=OSError, lists=LISTS):
    try:
        pefidx.build(lists, path)
    except kind:
        return True
    return False


def replaced_whole(wanted):
    make("x")
    os.chmod("x", 0o640)
    os.link("x", "hard")
    with open("x", "rb") as before:
        pefidx.build(LISTS, "x")
        assert before.read() == b"old"
    assert read("x") == wanted and read("hard") == b"old" and stat.S_IMODE(os.stat("x").st_mode) == 0o640
    mask = os.umask(0o027)
    pefidx.build(LISTS, "new")
    os.umask(mask)
    assert read("new") == wanted and stat.S_IMODE(os.stat("new").st_mode) == 0o640
    pefidx.build(LISTS, b"bytes")
    assert read("bytes") == wanted


def unfinished_changes_nothing(_wanted):
    make("x")
    assert fails("x", pefidx.BadPosting, [([0, 0], [1, 1])]) and fails("new", pefidx.BadPosting, [([0, 0], [1, 1])])
    assert fails("x", ValueError, [([0], [])]) and fails("no/such/folder") and fails(".") and fails("x/y")
    assert read("x") == b"old" and os.listdir() == ["x"]


def killed_leaves_the_old(_wanted):
    make("x")
    # It is killed once all is written, before the file takes its name.
    killed = subprocess.run([sys.executable, "-c", f"import os, pefidx; os.fsync = lambda _: os.kill(os.getpid(), 9); pefidx.build({LISTS}, 'x')"])
    assert killed.returncode == -9 and read("x") == b"old" and sorted(os.listdir()) == [".pefidx-0", "x"]


def links_are_followed(wanted):
    os.mkdir("links")
    os.mkdir("linked")
    make("linked/x")
    for text, link in (("../linked/x", "a"), ("a", "b"), ("../linked/new", "c"), ("d", "d")):
        os.symlink(text, "links/" + link)
    pefidx.build(LISTS, "links/b")
    pefidx.build(LISTS, "links/c")
    assert read("linked/x") == read("linked/new") == wanted and fails("links/d")
    assert all(os.path.islink("links/" + link) for link in "abcd")


def leftovers_harm_nothing(wanted):
    make(".pefidx-0")
    pefidx.build(LISTS, "x")
    pefidx.build(LISTS, ".pefidx-1")
    assert read("x") == read(".pefidx-1") == wanted and read(".pefidx-0") == b"old"
    assert sorted(os.listdir()) == [".pefidx-0", ".pefidx-1", "x"]


def a_thousand_leftovers_are_refused(_wanted):
    for number in range(1000):
        make(f".pefidx-{number}")
    assert fails("x") and not os.path.exists("x")


def long_names_are_names(wanted):
    name = 255 * "n"
    pefidx.build(LISTS, name)
    pefidx.build(LISTS, name)
    assert read(name) == wanted and os.listdir() == [name]


def devices_and_pipes_are_written_in_place(wanted):
    pefidx.build(LISTS, "/dev/null")
    assert stat.S_ISCHR(os.stat("/dev/null").st_mode) and fails("/dev/full") and stat.S_ISCHR(os.stat("/dev/full").st_mode)
    os.mkfifo("pipe")
    got = []
    reader = threading.Thread(target=lambda: got.append(read("pipe")))
    reader.start()
    pefidx.build(LISTS, "pipe")
    reader.join()
    assert got == [wanted] and stat.S_ISFIFO(os.stat("pipe").st_mode)


def owners_are_kept(_wanted):
    make("x")
    os.chown("x", 1234, 4321)
    pefidx.build(LISTS, "x")
    assert (os.stat("x").st_uid, os.stat("x").st_gid) == (1234, 4321)


def what_may_not_be_written_stays(_wanted):
    make("x")
    os.chmod(".", 0o777)
    os.chmod("x", 0o444)
    child = os.fork()
    if not child:
        os.setuid(1234)
        os._exit(0 if fails("x", PermissionError) and read("x") == b"old" and os.listdir() == ["x"] else 1)
    assert os.waitpid(child, 0)[1] == 0 and read("x") == b"old"


def main():
    wanted = built()
    assert len(wanted) % 8 == 0
    tries = [replaced_whole, unfinished_changes_nothing, killed_leaves_the_old, links_are_followed, leftovers_harm_nothing]
    tries += [a_thousand_leftovers_are_refused, long_names_are_names, devices_and_pipes_are_written_in_place]
    by_root = [owners_are_kept, what_may_not_be_written_stays] if os.getuid() == 0 else []
    for each in tries + by_root:
        with tempfile.TemporaryDirectory() as folder:
            os.chdir(folder)
            each(wanted)
            os.chdir("/")
    print(f"build writes its file as pefidx build does ({len(tries + by_root)} tries{'' if by_root else ', none of those that only root can do'})")


main()
