#!/usr/bin/env python3
"""Tries what the package promises beside its replies: package.py [PART..]. What only root can try is left out where another user runs it."""

import array
import concurrent.futures
import contextlib
import os
import pickle
import resource
import subprocess
import sys
import weakref

import pefidx
from parts import run_parts
from pefidx._library import library

LISTS = [([0, 2], [2, 1]), ([2], [4])]
LONG = 200_000


def opened(lists=LISTS):
    pefidx.build(lists, "x")
    return pefidx.Index("x")


def long_lists():
    return opened([(range(LONG), [1] * LONG), ([7], [3]), ([], [])])


def refuses(kind, call, *texts):
    """A call is refused by this exception, whose text has all of these."""
    try:
        call()
    except kind as error:
        said = str(error)
        assert all(text in said for text in texts), (texts, said)
        return error
    raise AssertionError(f"no {kind.__name__}")


@contextlib.contextmanager
def calls_of(name):
    """Counts the calls of a function of the library."""
    real, calls = getattr(library, name), []

    def counted(*words):
        calls.append(words)
        return real(*words)

    setattr(library, name, counted)
    yield calls
    setattr(library, name, real)


def maps_are_read_only():
    index = opened()
    with open("/proc/self/maps") as file:
        modes = [line.split()[1] for line in file if line.rstrip().endswith(os.path.abspath("x"))]
    assert modes == ["r--s"], modes
    index.close()
    with open("/proc/self/maps") as file:
        assert os.path.abspath("x") not in file.read()
    # A file that is larger than memory is looked at.
    with open("sparse", "wb") as file:
        file.truncate(1 << 42)
    refuses(pefidx.BrokenIndex, lambda: pefidx.Index("sparse"), "index K")
    # Memory for data is no limit of what is mapped.
    with open("sparse", "wb") as file:
        file.truncate(1 << 33)
    code = "import resource, pefidx; resource.setrlimit(resource.RLIMIT_DATA, (1 << 30, 1 << 30))\ntry: pefidx.Index('sparse')\nexcept pefidx.BrokenIndex: print('read')"
    assert subprocess.run([sys.executable, "-c", code], stdout=subprocess.PIPE).stdout == b"read\n"


def a_call_holds_its_map():
    index = opened()
    lines = index.search("or 0\n" * 2)
    assert next(lines) == "2 0 2"
    index.close()
    refuses(ValueError, lambda: next(lines), "closed")


def task(name):
    if name == "broken":
        with open("broken", "wb") as file:
            file.write(bytes(80))
        pefidx.Index("broken")
    pefidx.build([([0, 0], [1, 1])], "none")


def refusals_are_pickled():
    with concurrent.futures.ProcessPoolExecutor(1) as pool:
        broken = refuses(pefidx.BrokenIndex, lambda: pool.submit(task, "broken").result(60), "broken: index K")
        bad = refuses(pefidx.BadPosting, lambda: pool.submit(task, "bad").result(60), "list 0: posting 1 ")
    assert (broken.path, broken.check[0], broken.part) == ("broken", "K", 0) and (bad.term, bad.place) == (0, 1)
    for error in broken, bad:
        again = pickle.loads(pickle.dumps(error))
        assert type(again) is type(error) and vars(again) == vars(error) and str(again) == str(error)
    for wrong in (lambda: pickle.dumps(opened()), lambda: pickle.dumps({"index": opened()})):
        refuses(TypeError, wrong, "an Index", "Index(path)")


def a_full_disk_is_an_oserror():
    """In a namespace with a small file system of its own."""
    code = f"""
import errno, os, pefidx
os.mkdir("full")
assert not os.system("mount -t tmpfs -o size=512k none full")
os.chdir("full")
pefidx.build({LISTS}, "x")
before = open("x", "rb").read()
for name in "x", "y":
    try:
        pefidx.build([(range(400000), [1 + doc % 7 for doc in range(400000)])], name, format="2")
    except OSError as error:
        assert error.errno == errno.ENOSPC, error
    else:
        raise AssertionError("no OSError")
assert os.listdir() == ["x"] and open("x", "rb").read() == before
pefidx.build([(range(100000), [1] * 100000)], "z")
print("left nothing")
"""
    ran = subprocess.run(["unshare", "--mount", "--map-root-user", sys.executable, "-c", code], capture_output=True, text=True)
    if "unshare" in ran.stderr and ran.returncode == 1:
        print("not tried on a full disk, since no file system can be mounted here")
        return
    assert ran.stdout == "left nothing\n", ran


def room_is_that_of_the_lists():
    index = long_lists()
    before = resource.getrusage(resource.RUSAGE_SELF).ru_maxrss
    with calls_of("pefidx_top") as calls:
        assert index.top(2**32 - 1, {1: 5}) == [(7, 15)] and index.top(2**32 - 1, {2: 1}) == [] == index.top(0, {0: 1})
        assert len(index.top(2**32 - 1, {0: 1, 1: 1})) == LONG and len(index.top(LONG - 1, {0: 1})) == LONG - 1
        assert len(calls) == 5 and [call[13] for call in calls][:3] == [1, 0, 0] and calls[3][13] == LONG
    assert resource.getrusage(resource.RUSAGE_SELF).ru_maxrss - before < 200 << 10


def replies_are_made_once():
    index = long_lists()
    wanted = f"{LONG} " + " ".join(map(str, range(LONG)))
    for line, reply in ("or 0", wanted), ("and 0 0", wanted), ("  or 1 2  0 1", wanted), ("and 0 1", "1 7"), (f"top {LONG} 1*4 0", None), ("next 0 9", "9 1"):
        with calls_of("pefidx_reply") as calls:
            got = index.reply(line)
            assert got == reply or reply is None and got.count(":") == LONG
            assert len(calls) == 1, line
    for name, call in ("pefidx_or", lambda: index.or_([0, 1])), ("pefidx_or", lambda: index.or_([0] * 1024)), ("pefidx_and", lambda: index.and_([0, 0])):
        with calls_of(name) as calls:
            assert len(call()) == LONG and len(calls) == 1
    with calls_of("pefidx_and") as calls:
        assert list(index.and_([0, 1])) == [7] and calls[0][7] == 1
    assert [index.reply(line) for line in ("top", "or", "and", "", "top -1 0")] == ["bad number", "0", "0", "bad verb", "bad number"]
    # A number of 5,000 digits is no number to Python; the line has its reply all the same.
    with calls_of("pefidx_reply") as calls:
        assert index.reply("or " + 5000 * "0") == wanted
        assert index.reply("top 2 " + 5000 * "0" + "*2") == "2 0:2 1:2" and len(calls) == 2


def formats_have_names():
    for format, version in {"packed": 3, "1": 1, "2": 2, pefidx.PACKED: 3, None: 3}.items():
        pefidx.build(LISTS, "x", **({"format": format} if format else {}))
        with open("x", "rb") as file:
            assert file.read(9)[8] == version
    for format in "3", "plain", 2, 3, None, 2.0:
        refuses(ValueError, lambda: pefidx.build(LISTS, "none", format=format), repr(format), "'packed', '1', '2'")
    assert not os.path.exists("none")


def lists_are_taken_one_by_one():
    class List(array.array):
        __hash__ = object.__hash__

    alive, most = weakref.WeakSet(), []

    def lists():
        for _ in range(20):
            docs = List("I", [1, 2])
            alive.add(docs)
            yield docs, iter([1, 1])
            del docs
            most.append(len(alive))

    with opened(lists()) as index:
        assert len(index) == 20 and list(index[19].docs) == [1, 2]
    assert max(most) <= 1, most


def ranges_are_joined():
    join = pefidx.join_top
    assert join(2, [(3, [(2, 5), (0, 1)]), (8, [(0, 7)]), (0, [])]) == [(3, 7), (2, 5)]
    # Of equal scores the lower document comes first, whichever range gave it.
    assert join(9, iter([(2, iter([(1, 4)])), (2, [(0, 4), (1, 4)])])) == [(1, 4), (2, 4), (3, 4)]
    assert join(0, [(1, [(0, 1)])]) == join(5, []) == join(5, [(0, []), (7, [])]) == []
    assert join(1, [(2**32 - 1, [(2**32 - 2, 2**58 - 1)])]) == [(2**32 - 2, 2**58 - 1)]
    for ranges in [(2, [(2, 1)])], [(0, [(0, 1)])], [(2, [(-1, 1)])], [(2**32, [])], [(-1, [])]:
        refuses(IndexError, lambda: join(1, ranges))
    for k in -1, 2**32:
        refuses(IndexError, lambda: join(k, []))
    refuses(ValueError, lambda: join(1, [(1, []), (2, [(0, 1), (0, 2)])]), "range 1")
    refuses(OverflowError, lambda: join(1, [(2**32 - 1, []), (1, [])]), str(2**32))
    for ranges in [(1, [(0, 0.5)])], [("1", [])], [(1, [(0,)])], [1]:
        refuses((TypeError, ValueError), lambda: join(1, ranges))


def errors_say_what_is_wrong():
    index = opened()
    for call in (lambda: index.next(2, 0), lambda: index.and_([0, 2, 9]), lambda: index.or_([0, 2]), lambda: index.top(1, {0: 1, 2: 1}), lambda: index[2], lambda: index.count(2)):
        refuses(IndexError, call, "no term 2", "has 2")
    refuses(IndexError, lambda: index.or_([0, -1]), "no term -1")
    refuses(IndexError, lambda: index.or_([2**32]), "no term 4294967296")
    with opened([]) as none:
        refuses(IndexError, lambda: none.or_([0]), "no term 0", "has 0")
    refuses(ValueError, lambda: index.or_([0] * 1025), "1025 terms", "1,024")
    refuses(ValueError, lambda: index.top(1, {0: 1, 1: 0}), "weight 0 of term 1")
    refuses(ValueError, lambda: index.top(1, {0: 2**32, 1: 1}), "weight 4294967296 of term 0")
    refuses(ValueError, lambda: index.top(1, {0: 2**25, 1: 2**25}), "sum to 67108864")
    for call in (lambda: index.top(1, {}, plan="none"), lambda: index.reply("or 0", "none"), lambda: index.search([], "none")):
        refuses(ValueError, call, "'none'", "'maxscore'")
    for weights in [(0, 1)], [0], {0}, "0", None:
        refuses(TypeError, lambda: index.top(1, weights), "{0: 1}", type(weights).__name__)
    for line in bytearray(b"or 0"), memoryview(b"or 0"), 7, None:
        refuses(TypeError, lambda: index.reply(line), "str or bytes", type(line).__name__)
        refuses(TypeError, lambda: list(index.search([line])), "str or bytes", type(line).__name__)
    refuses(ValueError, lambda: pefidx.build([([0], [1]), ([0, 1], [1])], "none"), "list 1", "2 documents", "1 frequencies")
    refuses(TypeError, lambda: pefidx.build([([0], [1]), ([0.5], [1])], "none"), "list 1", "float")
    refuses(pefidx.BadPosting, lambda: pefidx.build([([0], [1]), ([3, 2], [1, 1])], "none"), "list 1: posting 1 ")
    refuses(OverflowError, lambda: pefidx.build([([0], [1])], "none", [2**32]), "size 4294967296 of document 0")
    assert not os.path.exists("none")


def a_broken_file_is_told():
    with open("broken", "wb") as file:
        file.write(bytes(79))
    refuses(pefidx.BrokenIndex, lambda: pefidx.Index("broken"), "broken: index K1 term 0 part 0")
    refuses(FileNotFoundError, lambda: pefidx.Index("nothing there"))


def what_is_kept_is_made_once():
    index = long_lists()
    with calls_of("pefidx_keep") as starts, calls_of("pefidx_maxima") as maxima:
        index.size_of(7)
        assert (starts, maxima) == ([], [])
        assert index.reply("or 1") == "1 7" and index.top(1, {1: 5}, plan="wand") == [(7, 15)]
        assert starts and not maxima
        known = len(starts)
        with concurrent.futures.ThreadPoolExecutor(4) as threads:
            got = list(threads.map(lambda k: index.top(k, {0: 1, 1: 5}), [1] * 8))
        assert got == 8 * [[(7, 16)]] and index.reply("  top 1 0 1*5") == "1 7:16"
        assert len(starts) == known and len(maxima) == 1


PARTS = [
    maps_are_read_only, a_call_holds_its_map, refusals_are_pickled, a_full_disk_is_an_oserror, room_is_that_of_the_lists,
    replies_are_made_once, formats_have_names, lists_are_taken_one_by_one, errors_say_what_is_wrong, a_broken_file_is_told,
    ranges_are_joined, what_is_kept_is_made_once,
]


if __name__ == "__main__":
    run_parts(PARTS, sys.argv[1:], "the package keeps what it promises")
