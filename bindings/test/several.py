#!/usr/bin/env python3
"""Tries several files as one index: several.py PROGRAM SERVER [PART..].

A collection is drawn, and cut into 1, 3 and 64 ranges of its documents, some without one; the files
are packed, plain, or some of each kind. Every reply of the package and of the server is that of
`PROGRAM segments`, by every plan, lists are those of the whole, and a merged file is that of
`PROGRAM merge`. PROGRAM may have arguments of its own.
"""
import array
import bisect
import ctypes
import functools
import os
import random
import shlex
import signal
import subprocess
import sys
import threading

import pefidx
from package import calls_of
from parts import run_parts
from replies import drawn, odd_lines, refuses, reply
from server import Server, line_of

PROGRAM, SERVER = shlex.split(sys.argv[1]), os.path.abspath(sys.argv[2])
PROGRAM[0] = os.path.abspath(PROGRAM[0]) if "/" in PROGRAM[0] else PROGRAM[0]
ANY = "127.0.0.1:0"
DOCUMENTS, TERMS, LINES = 3000, 40, 100
COUNTS = (1, 3, 64)
KINDS = {"packed": ["packed"], "plain": ["2"], "mixed": ["packed", "1", "2"]}


def collection(seed=1):
    """The lists of a collection, some long and some empty, some in runs of documents, and the sizes
    of its documents."""
    draw, lists = random.Random(seed), []
    for term in range(TERMS):
        share, runs = draw.choice([0, 0.001, 0.02, 0.3, 0.9]), draw.choice([1, 0.2])
        taken = [draw.random() < runs for _ in range(0, DOCUMENTS, 50)]
        docs = [doc for doc in range(DOCUMENTS) if draw.random() < share and taken[doc // 50]]
        lists.append((docs, [draw.choice([1, 1, 2, 9, 300]) for _ in docs]))
    return lists, [draw.randrange(1000) for _ in range(DOCUMENTS)]


LISTS, SIZES = collection()


def borders_of(count):
    """The first document of each range, and the end: of many ranges some have no document."""
    draw = random.Random(count)
    return [0, *sorted(draw.randrange(DOCUMENTS + 1) for _ in range(count - 1)), DOCUMENTS]


def write_range(path, first, end, format, terms=TERMS):
    """An index of some of the documents, and of the first terms."""
    lists = []
    for docs, freqs in LISTS[:terms]:
        begin, stop = (bisect.bisect_left(docs, border) for border in (first, end))
        lists.append(([doc - first for doc in docs[begin:stop]], freqs[begin:stop]))
    pefidx.build(lists, path, SIZES[first:end], format)
    return path


@functools.lru_cache(None)
def files_of(count, kind):
    """The files of the ranges, which are written once."""
    formats, borders = KINDS[kind], borders_of(count)
    return [
        write_range(f"{kind}.{count}.{at}", first, end, formats[at % len(formats)])
        for at, (first, end) in enumerate(zip(borders, borders[1:]))
    ]


def all_files():
    for count in COUNTS:
        for kind in KINDS:
            yield files_of(count, kind)


def program(*words, text=b""):
    return subprocess.run([*PROGRAM, *words], input=text, capture_output=True)


def answered(files, lines, plan):
    """The replies of the program to lines."""
    text = "".join(line + "\n" for line in lines).encode()
    by_plan = "maxscore" if plan == "intervals" else plan
    ran = program("segments", *files, "--plan", by_plan, text=text)
    assert ran.returncode == 0, ran.stderr
    return ran.stdout.decode().split("\n")[:-1]


def replies_are_those_of_segments():
    for files in all_files():
        with pefidx.Index(files) as index:
            lines = drawn(index, LINES, len(files))
            asked = [line for line, _ in lines]
            odd = [line for line in odd_lines(index.terms) if len(line) < 1000 or len(files) == 3]
            for plan in pefidx.PLANS:
                wanted = answered(files, asked, plan)
                assert [reply(index, what, plan) for _, what in lines] == wanted, (files[0], plan)
                assert list(index.search(asked, plan)) == wanted, (files[0], plan)
            assert list(index.search(odd)) == answered(files, odd, "maxscore"), files[0]


def lists_are_those_of_the_whole():
    pefidx.build(LISTS, "whole", SIZES)
    draw = random.Random(2)
    with pefidx.Index("whole") as whole:
        for files in all_files():
            with pefidx.Index(files) as index:
                assert (index.documents, index.terms, index.path) == (DOCUMENTS, TERMS, files[0])
                assert index.paths == tuple(files)
                assert [index.size_of(doc) for doc in range(DOCUMENTS)] == SIZES
                for term in range(TERMS):
                    same_list(index, term, draw)
                    for doc in *borders_of(len(files)), draw.randrange(DOCUMENTS), 2**32 - 1:
                        assert index.next(term, doc) == whole.next(term, doc), (files[0], term, doc)


def same_list(index, term, draw):
    """A list is the drawn one, however it is read."""
    docs, freqs = LISTS[term]
    got = index.postings(term)
    assert index.count(term) == len(docs)
    assert (list(got.docs), list(got.freqs)) == (docs, freqs), (index, term)
    for place in 0, draw.randrange(len(docs) + 2), len(docs):
        room = draw.choice([30, 300, 3000])
        blocks = list(index.blocks(term, place, room))
        assert [doc for block in blocks for doc in block.docs] == docs[place:]
        assert [freq for block in blocks for freq in block.freqs] == freqs[place:]
        assert all(len(block.docs) == room for block in blocks[:-1])
        into = array.array("I", [7]) * (2 * room)
        pairs = list(zip(docs[place : place + room], freqs[place : place + room]))
        assert index.postings_into(into, term, place) == len(pairs)
        wanted = [number for pair in pairs for number in pair]
        assert list(into) == wanted + [7] * (2 * room - len(wanted))


def maxima_are_those_of_the_whole():
    """They are made once, and by them the best of few lists are found."""
    pefidx.build(LISTS, "whole", SIZES)
    longest = sorted(range(TERMS), key=lambda term: -len(LISTS[term][0]))[:8]
    lines = [f"top 5 {one}*3 {other}" for one in longest for other in longest if one != other]
    with pefidx.Index("whole") as whole:
        wanted = ctypes.string_at(*whole._open().maxima)
        assert len(wanted) > 8
        for files in all_files():
            with pefidx.Index(files) as index, calls_of(made_by(files)) as calls:
                assert list(index.search(lines)) == answered(files, lines, "exhaustive"), files[0]
                assert ctypes.string_at(*index._open().maxima) == wanted, files[0]
                assert len(calls) == 1, files[0]


def made_by(files):
    return "pefidx_maxima_segments" if len(files) > 1 else "pefidx_maxima"


def threads_ask_at_once():
    files, wrong = files_of(64, "mixed"), []
    with pefidx.Index(files) as index:
        lines = drawn(index, LINES, 5)
        wanted = answered(files, [line for line, _ in lines], "maxscore")

        def ask():
            for (line, what), one in zip(lines, wanted):
                if reply(index, what, "maxscore") != one or index.reply(line) != one:
                    wrong.append(line)

        threads = [threading.Thread(target=ask) for _ in range(4)]
        for thread in threads:
            thread.start()
        for thread in threads:
            thread.join()
    assert not wrong, wrong[:3]


def replies_are_made_once():
    """In as much room as all files need together."""
    files = files_of(64, "mixed")
    with pefidx.Index(files) as index:
        longest = max(range(TERMS), key=index.count)
        for line in f"or {longest}", f"and {longest}", f"top 9999 {longest}", "or " + 5000 * "0":
            with calls_of("pefidx_reply_segments") as calls:
                assert [index.reply(line)] == answered(files, [line], "maxscore")
                assert len(calls) == 1, line
        # K is a bound of what all files give together.
        with calls_of("pefidx_reply_segments") as calls:
            index.reply(f"top 007 {longest}")
            assert calls[0][12] == 11 + 30 * 7
        with calls_of("pefidx_top_segments") as calls:
            index.top(2**32 - 1, {longest: 1})
            assert [call[15] for call in calls] == [index.count(longest)]


def a_server_answers_from_all():
    for files in all_files():
        with pefidx.Index(files) as index:
            asked = [line for line, _ in drawn(index, LINES, 3)]
            asked += [line for line in odd_lines(index.terms) if len(line) < 1000]
        for plan in pefidx.PLANS:
            with Server([SERVER, "-p", plan], files, ANY) as server:
                got = server.ask("".join(line + "\n" for line in asked).encode())
            assert got.decode().split("\n")[:-1] == answered(files, asked, plan), (files[0], plan)


def refusal_of(call):
    """What a call is refused by."""
    try:
        call()
    except pefidx.Error as error:
        return error
    raise AssertionError("no refusal")


def refused_by_the_server(*files):
    ran = subprocess.run([SERVER, *files, ANY], stderr=subprocess.PIPE, text=True, timeout=60)
    assert ran.returncode == 1, ran
    return ran.stderr


def broken(path, seed):
    """A file with a changed byte, which is no index."""
    draw = random.Random(seed)
    with open(path, "rb") as file:
        whole = bytearray(file.read())
    while True:
        changed = bytearray(whole)
        changed[draw.randrange(len(whole))] ^= 1 << draw.randrange(8)
        with open(f"broken.{seed}", "wb") as file:
            file.write(changed)
        if program("inspect", f"broken.{seed}").returncode == 4:
            return f"broken.{seed}"


def what_is_refused_is_told_as_by_the_program():
    files = files_of(3, "mixed")
    for at in range(3):
        for seed in range(3 * at, 3 * at + 3):
            path = broken(files[at], seed)
            given = [*files[:at], path, *files[at + 1 :]]
            told = program("segments", *given).stderr.decode().splitlines()[0]
            error = refusal_of(lambda: pefidx.Index(given))
            assert type(error) is pefidx.BrokenIndex and error.path == path, error
            assert f"{error} segment {at}" == f"{path}: {told}"
            assert refused_by_the_server(*given) == f"pefidx-serve: {path}: {told}\n"
    # The first that breaks is told.
    assert refusal_of(lambda: pefidx.Index([files[0], "broken.3", "broken.6"])).path == "broken.3"
    fewer = write_range("fewer", 0, 10, "packed", TERMS - 1)
    for given, at in ([*files[:2], fewer], 2), ([fewer, *files], 1):
        told = program("segments", *given).stderr.decode().splitlines()[0]
        error = refusal_of(lambda: pefidx.Index(given))
        assert type(error) is pefidx.BadSegment and str(error) == f"{given[at]}: {told}"
        assert (error.path, error.rule, error.segment) == (given[at], "G1", at)
        assert refused_by_the_server(*given) == f"pefidx-serve: {given[at]}: {told}\n"
    with open("cut", "wb") as file:
        file.write(bytes(79))
    assert refusal_of(lambda: pefidx.Index([files[0], "cut"])).path == "cut"
    said = refused_by_the_server(files[0], "cut")
    assert said == "pefidx-serve: cut: index K1 term 0 part 0 segment 1\n"
    refuses(FileNotFoundError, lambda: pefidx.Index([files[0], "none"]))
    said = refused_by_the_server(files[0], "none")
    assert said == "pefidx-serve: none: No such file or directory\n"
    refuses(ValueError, lambda: pefidx.Index([]))


def a_file_may_stand_twice():
    path = write_range("once", 0, 500, "packed")
    asked = ["or 1 2 3", "top 5 1*3 4", "next 3 500", "and 3 4"]
    for given in [path], [path, path], [path] * 64:
        with pefidx.Index(given) as index:
            assert index.documents == 500 * len(given)
            assert list(index.search(asked)) == answered(given, asked, "wand")
            more = f" and {len(given) - 1} more" if len(given) > 1 else ""
            assert repr(index).startswith(f"<pefidx.Index 'once'{more}: {index.documents} ")
    assert program("segments", *[path] * 65).returncode == 2
    refuses(ValueError, lambda: pefidx.Index([path] * 65))
    assert subprocess.run([SERVER, *[path] * 65, ANY], stderr=subprocess.DEVNULL).returncode == 2


def small(path, freq):
    pefidx.build([([0, 2], [freq, 1]), ([2], [4])], "new")
    os.replace("new", path)
    return path


def all_files_are_opened_anew():
    files = [small(f"served.{at}", 1 + at) for at in range(3)]
    with Server([SERVER, "-s", "./status"], files, ANY) as server, server.client() as kept:

        def ask(doc):
            kept.sendall(b"next 0 %d\n" % doc)
            return line_of(kept)

        assert [ask(doc) for doc in (0, 3, 6, 9)] == [b"0 1\n", b"3 2\n", b"6 3\n", b"end\n"]
        told = server.status("./status")
        assert (told["index"], told["files"]) == ("served.0", 3)
        assert (told["documents"], told["terms"]) == (9, 2)
        assert told["bytes"] == sum(map(os.path.getsize, files))
        small(files[1], 7)
        small(files[2], 8)
        assert ask(3) == b"3 2\n"
        server.signal(signal.SIGHUP)
        assert "served.0 and 2 more: " in server.said("is served anew")
        assert [ask(doc) for doc in (0, 3, 6)] == [b"0 1\n", b"3 7\n", b"6 8\n"]
        pefidx.build([([0], [9])], "new")
        os.replace("new", files[1])
        server.signal(signal.SIGHUP)
        server.said("served.1: segments G1 segment 1")
        told = server.status("./status")
        assert (told["refused_file"], told["refusal"]) == ("served.1", "segments G1 segment 1")
        assert told["reloads"] == 1
        assert ask(3) == b"3 7\n"
        os.unlink(files[2])
        server.signal(signal.SIGHUP)
        server.said("served.2: No such file")
        assert ask(6) == b"6 8\n"


def maps_are_one_range_that_is_read():
    files = files_of(3, "mixed")
    before = len(maps_of([""]))
    with pefidx.Index(files):
        maps = maps_of(files)
        assert [mode for _, mode in maps] == ["r--s"] * 3, maps
        # Each begins where the one before it ends.
        ends = [border for span, _ in maps for border in span.split("-")][1:-1]
        assert ends[::2] == ends[1::2], maps
    # Nothing is left, also where one is refused.
    for _ in range(20):
        refusal_of(lambda: pefidx.Index([*files, broken(files[0], 1)]))
    assert not maps_of(files) and len(maps_of([""])) - before < 20


def maps_of(paths):
    """The addresses and the mode of each map of one of these files; any map is one of ""."""
    ends = tuple(os.path.abspath(path) if path else "" for path in paths)
    with open("/proc/self/maps") as file:
        return [tuple(line.split()[:2]) for line in file if line.rstrip().endswith(ends)]


def merged_is_what_the_program_merges():
    for files in all_files():
        assert program("merge", *files, "merged").returncode == 0
        pefidx.merge(files, "ours")
        assert read("ours") == read("merged"), files[0]
    with pefidx.Index("ours") as index:
        assert all((list(got.docs), list(got.freqs)) == of for got, of in zip(index, LISTS))
    # One with fewer terms has empty lists for the others.
    borders = borders_of(3)
    fewer = [
        write_range(f"fewer.{at}", *borders[at : at + 2], "packed", TERMS - 5 * at)
        for at in range(3)
    ]
    for given in fewer, fewer[::-1], fewer[1:2]:
        assert program("merge", *given, "merged").returncode == 0
        pefidx.merge(iter(given), "ours")
        assert read("ours") == read("merged"), given


def read(path):
    with open(path, "rb") as file:
        return file.read()


def what_is_not_merged_leaves_the_old():
    files = files_of(3, "mixed")
    pefidx.merge(files, "ours")
    before = read("ours")
    path = broken(files[1], 1)
    frequent = "frequent"
    pefidx.build([([], [])] * 3 + [(range(40000), [2**32 - 1] * 40000)], frequent)
    cases = [[files[0], path, files[2]], [frequent, files[0], frequent], [frequent, frequent]]
    for given in cases:
        ran = program("merge", *given, "merged")
        told = ran.stderr.decode().splitlines()[0]
        error = refusal_of(lambda: pefidx.merge(given, "ours"))
        if ran.returncode == 4:
            assert type(error) is pefidx.BrokenIndex and error.path == path, error
            assert f"{error} segment 1" == f"{path}: {told}"
        else:
            assert ran.returncode == 11 and type(error) is pefidx.BadSegment, (ran, error)
            assert error.rule == "G3" and str(error) == f"{given[error.segment]}: {told}", told
    refuses(FileNotFoundError, lambda: pefidx.merge([files[0], "none"], "ours"))
    refuses(ValueError, lambda: pefidx.merge([], "ours"))
    assert read("ours") == before
    assert not [name for name in os.listdir() if name.startswith(".pefidx-")]


PARTS = [
    replies_are_those_of_segments,
    lists_are_those_of_the_whole,
    maxima_are_those_of_the_whole,
    threads_ask_at_once,
    replies_are_made_once,
    a_server_answers_from_all,
    what_is_refused_is_told_as_by_the_program,
    a_file_may_stand_twice,
    all_files_are_opened_anew,
    maps_are_one_range_that_is_read,
    merged_is_what_the_program_merges,
    what_is_not_merged_leaves_the_old,
]


if __name__ == "__main__":
    # Hundreds of files are written, which need not be on the disk.
    os.fsync = lambda _file: None
    run_parts(PARTS, sys.argv[3:], "several files answer as one")
