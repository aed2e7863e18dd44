#!/usr/bin/env python3
"""Holds the bindings against the program, on one index file.

    replies.py PROGRAM INDEX [LINES [SEED]]

Query lines are drawn, and answered by `PROGRAM query INDEX --plan PLAN` and by the package from four threads at once, under each plan: every
reply is to be the same, and so is that of `search` to each line, also to lines that break a rule. Then lists are walked, the index is built
anew from them and is to be the same file, in the other formats it is to have the same lists, and files with a changed byte are to be refused
as the program refuses them. PROGRAM may have arguments of its own, in one word.
"""
import array
import itertools
import os
import random
import shlex
import subprocess
import sys
import tempfile
import threading
import time

import pefidx

try:
    import numpy
except ImportError:
    numpy = None

THREADS = 4


def drawn(index, lines, seed):
    """Query lines over the terms of an index: (line, what is asked)."""
    draw = random.Random(seed)
    made = []
    for _ in range(lines):
        verb = draw.choice(["next", "and", "or", "top"])
        terms = draw.sample(range(index.terms), min(index.terms, draw.choice([0, 1, 2, 2, 3, 5, 20])))
        if verb == "next":
            asked = (draw.randrange(index.terms), draw.randrange(index.documents + 2))
            made.append((f"next {asked[0]} {asked[1]}", (verb, asked)))
        elif verb == "top":
            weights = {term: draw.choice([1, 2, 7, 65535]) for term in terms}
            k = draw.choice([0, 1, 10, 100, 4_000_000_000 if len(made) % 50 == 0 else 1000])
            made.append((" ".join(["top", str(k), *(f"{t}*{w}" for t, w in weights.items())]), (verb, (k, weights))))
        else:
            made.append((" ".join([verb, *map(str, terms)]), (verb, (terms,))))
    return made


def reply(index, asked, plan):
    """The reply of the bindings, as the program spells it."""
    verb, what = asked
    if verb == "next":
        found = index.next(*what)
        return "end" if found is None else f"{found[0]} {found[1]}"
    if verb == "top":
        pairs = [f"{doc}:{score}" for doc, score in index.top(*what, plan=plan)]
        return " ".join([str(len(pairs)), *pairs])
    docs = (index.and_ if verb == "and" else index.or_)(*what)
    return " ".join([str(len(docs)), *map(str, docs)])


def answered(program, path, lines, plan):
    text = "".join(line + "\n" for line in lines).encode()
    begun = time.monotonic()
    words = ["iquery", path] if plan == "intervals" else ["query", path, "--plan", plan]
    ran = subprocess.run([*program, *words], input=text, stdout=subprocess.PIPE, check=True)
    return ran.stdout.decode().split("\n")[:-1], time.monotonic() - begun


def answer_all(index, lines, plan, first, wrong, wanted):
    """Every line from one of them on, each compared."""
    for step in range(len(lines)):
        at = (first + step) % len(lines)
        got = reply(index, lines[at][1], plan)
        if got != wanted[at]:
            wrong.append((lines[at][0][:80], plan, got[:80], wanted[at][:80]))
            return


def same_replies(program, path, index, lines):
    for plan in pefidx.PLANS:
        wanted, by_process = answered(program, path, [line for line, _ in lines], plan)
        assert len(wanted) == len(lines), "a reply for each line"
        wrong = []
        threads = [
            threading.Thread(target=answer_all, args=(index, lines, plan, len(lines) * at // THREADS, wrong, wanted)) for at in range(THREADS)
        ]
        begun = time.monotonic()
        for thread in threads:
            thread.start()
        for thread in threads:
            thread.join()
        assert not wrong, wrong
        print(f"{plan}: {len(lines)} lines, {THREADS} threads, the same; process {by_process:.2f} s, {THREADS} times here {time.monotonic() - begun:.2f} s")


def same_ranges(index, lists, lines, folder):
    """The best of ranges of the documents, joined, are those of the whole."""
    draw = random.Random(2)
    borders = sorted(draw.randrange(index.documents + 1) for _ in range(3))
    ranges = list(zip([0, *borders], [*borders, index.documents]))
    opened = []
    for first, end in ranges:
        part = (
            list(zip(*((doc - first, freq) for doc, freq in zip(*of) if first <= doc < end)))
            or ([], [])
            for of in lists
        )
        path = os.path.join(folder, f"range.{first}.{end}")
        pefidx.build(part, path, [index.size_of(doc) for doc in range(first, end)])
        opened.append(pefidx.Index(path))
    asked = [what for _, (verb, what) in lines if verb == "top"]
    for k, weights in asked:
        gave = [(part.documents, part.top(k, weights)) for part in opened]
        assert pefidx.join_top(k, gave) == index.top(k, weights), (k, weights, borders)
    print(f"the best of {len(opened)} ranges are joined to those of the whole, {len(asked)} times")


def odd_lines(terms):
    """Lines that break each rule, and some that break two, or none."""
    yield from ["", " ", "next", "next 0", "next 0 0 0", "nextly 0 0", "and", "or", "top", "top 1", "top 0 0"]
    yield from ["\u00e4 0", "or \u0660", "or 0\r", "or\t0", "OR 0"]
    for number in ["x", "-1", "+1", "1_0", "0x1", "1.0", "4294967295", "4294967296", 5000 * "0" + "1", 5000 * "1", "\u00b2", "1*1", "*", "1*", "*1"]:
        yield from [f"next {number} 0", f"next 0 {number}", f"or {number}", f"and 0 {number}", f"top {number} 0", f"top 1 {number}"]
    for weight in ["0", "00", "1", "65535", "65536", "4294967295", "4294967296", "1*1", "x"]:
        yield from [f"top 2 0*{weight}", f"top 2 0*{weight} x", f"top 2 {terms}*{weight}", f"top 2 0*{weight} 0*3 0"]
    for count in (1023, 1024, 1025):
        yield from [verb + count * " 0" for verb in ("or", "and", "top 3")] + [f"or {terms}" + count * " 0", "top 3 0*0" + count * " 0"]
    for length in (65535, 65536, 70000):
        yield from ["or 0" + (length - 4) * " ", (length - 4) * " " + "or 0", "or " + (length - 3) * "0", length * "x", "top 1 " + (length - 6) * "*"]
    yield f"or {terms}"
    yield f"next {terms} 0"
    yield "  or   0  0 "


def same_search(program, path, index, lines):
    """The replies to lines as text."""
    asked = [line for line, _ in lines] + list(odd_lines(index.terms))
    for plan in pefidx.PLANS:
        wanted, _ = answered(program, path, asked, plan)
        text = "".join(line + "\n" for line in asked)
        for given in asked, text, text.encode(), text[:-1], text.encode().splitlines(keepends=True), (line for line in asked):
            got = list(itertools.islice(index.search(given, plan), len(asked) + 1))
            assert got == wanted, next((line[:80], one[:80], other[:80]) for line, one, other in zip(asked, got, wanted) if one != other)
        assert [index.reply(line, plan) for line in asked] == wanted
    assert list(index.search("")) == list(index.search([])) == [] and list(index.search("\n")) == ["bad verb"] == [index.reply("\n")]
    print(f"search: {len(asked)} lines under each plan, the same")


def walked(index):
    """The lists of an index and its sizes, however they are walked."""
    lists = list(index)
    assert len(lists) == len(index) == index.terms and [len(postings.docs) for postings in lists] == [index.count(term) for term in range(index.terms)]
    draw = random.Random(1)
    longest = max(range(index.terms), key=lambda term: len(lists[term].docs))
    for term in [longest, *draw.sample(range(index.terms), min(index.terms, 300))]:
        docs, freqs = (list(map(int, each)) for each in lists[term])
        for postings in index.postings(term), index[term]:
            assert (list(postings.docs), list(postings.freqs)) == (docs, freqs)
        place, room = draw.randrange(len(docs) + 2), 1 + draw.randrange(len(docs) + 1)
        blocks = list(index.blocks(term, place, room))
        assert [int(doc) for block in blocks for doc in block.docs] == docs[place:] and [int(freq) for block in blocks for freq in block.freqs] == freqs[place:]
        assert all(len(block.docs) == room for block in blocks[:-1]) and all(0 < len(block.docs) <= room for block in blocks)
        into = array.array("I", [7]) * (2 * room)
        assert index.postings_into(into, term, place) == len(docs[place : place + room])
        pairs = [number for pair in zip(docs[place : place + room], freqs[place : place + room]) for number in pair]
        assert list(into) == pairs + (2 * room - len(pairs)) * [7]
    return lists, [index.size_of(doc) for doc in range(index.documents)]


def arrays(index):
    """Numbers are taken and given as arrays, those of numpy without a copy."""
    terms = [0, index.terms - 1]
    wanted = list(index.or_(terms))
    assert wanted == list(index.or_(array.array("I", terms))) == list(index.or_(array.array("q", terms))) == list(index.or_(iter(terms)))
    if numpy is None:
        assert isinstance(index.or_(terms), array.array) and isinstance(index.postings(0).docs, array.array)
        print("arrays are those of the standard library")
        return
    for asked in numpy.array(terms, "u4"), numpy.array(terms), numpy.array(terms, ">u4"), numpy.array(terms + terms, "u4")[::3], numpy.array(terms, "u8"):
        assert wanted == index.or_(asked).tolist() == index.or_(list(asked)).tolist()
    assert index.next(numpy.int64(0), numpy.uint8(0)) == index.next(0, 0)
    assert index.or_(terms).dtype == index.postings(0).docs.dtype == index.postings(0).freqs.dtype == numpy.uint32
    into = numpy.full((len(index.postings(0).docs) + 1, 2), 7, numpy.uint32)
    given = index.postings_into(into, 0)
    assert into[:given, 0].tolist() == index.postings(0).docs.tolist() and into[given:].tolist() == [[7, 7]]
    assert next(index.blocks(0)).docs.base is not None
    for wrong in numpy.array([0.0]), numpy.array([[0]]):
        refuses(TypeError, lambda: index.or_(wrong))
    refuses(IndexError, lambda: index.or_(numpy.array([-1])))
    refuses(TypeError, lambda: index.postings_into(into.T, 0))
    print("arrays are those of numpy")


def same_file(path, lists, sizes, folder, lines, wanted):
    """Built anew in its format it is the same file, and in each other one a file of the same lists, with the same replies by intervals."""
    again = os.path.join(folder, "again.pefindex")
    with open(path, "rb") as file:
        old = file.read()
    own = {number: name for name, number in pefidx.FORMATS.items()}[old[8]]
    with pefidx.Index(path) as index:
        for given, counts in (lists, sizes), (index, sizes if numpy is None else numpy.array(sizes, numpy.uint32)):
            pefidx.build(given, again, counts, own)
            with open(again, "rb") as new:
                assert old == new.read(), "built anew it is the same file"
    lengths = {own: len(old)}
    for other in set(pefidx.FORMATS) - {own}:
        pefidx.build(lists, again, sizes, format=other)
        lengths[other] = os.path.getsize(again)
        with pefidx.Index(again) as index:
            others, counts = walked(index)
            assert all(list(a) == list(b) for of, to in zip(others, lists) for a, b in zip(of, to)) and counts == sizes, other
            assert list(index.search(lines)) == wanted, other
    print("built anew it is the same file, and the same lists in each format:", *(f"{lengths[each]:,} bytes in {each}" for each in sorted(lengths)))


def refused_alike(program, path, folder, seed):
    """A changed byte is refused by the program and here at the same check, term and part, or by neither."""
    draw = random.Random(seed)
    with open(path, "rb") as file:
        whole = bytearray(file.read())
    changed = os.path.join(folder, "changed.pefindex")
    seen = 0
    for at in [0, 8, len(whole) - 1, len(whole) - 9, len(whole) - 17] + [draw.randrange(len(whole)) for _ in range(20)]:
        bytes_of = bytearray(whole)
        bytes_of[at] ^= 1 << draw.randrange(8)
        with open(changed, "wb") as file:
            file.write(bytes_of)
        ran = subprocess.run([*program, "query", changed], input=b"", stdout=subprocess.PIPE, stderr=subprocess.PIPE)
        try:
            pefidx.Index(changed).close()
            assert ran.returncode == 0, (at, ran.returncode)
        except pefidx.BrokenIndex as broken:
            told = f"index {broken.check} term {broken.term} part {broken.part}"
            assert ran.returncode == 4 and told in ran.stderr.decode(), (at, told, ran.stderr)
            seen += 1
    print(f"{seen} of 25 changed files are refused, alike")


def refuses(kind, call):
    """Whether a call ends with just this exception."""
    try:
        call()
    except Exception as error:
        assert type(error) is kind, error
        return
    raise AssertionError("no refusal")


def causes(path):
    """What is refused, by which exception (README.md of the bindings)."""
    index = pefidx.Index(path)
    assert repr(index) == f"<pefidx.Index {path!r}: {index.documents} documents, {index.terms} terms>" and not index.closed
    for term in index.terms, -1, 2**32, -(2**70):
        for call in (lambda: index.next(term, 0), lambda: index.postings(term), lambda: index[term], lambda: index.blocks(term), lambda: index.count(term)):
            refuses(IndexError, call)
        for call in (lambda: index.and_([term]), lambda: index.or_([0, term]), lambda: index.top(1, {term: 1}), lambda: index.postings_into(bytearray(), term)):
            refuses(IndexError, call)
    for number in -1, 2**32:
        for call in (lambda: index.next(0, number), lambda: index.blocks(0, number), lambda: index.blocks(0, 0, number), lambda: index.size_of(number)):
            refuses(IndexError, call)
        refuses(IndexError, lambda: index.top(number, {0: 1}))
    for call in (lambda: index.size_of(index.documents), lambda: index.blocks(0, 0, 0)):
        refuses(IndexError, call)
    for number in 0.9, "0", None, [0]:
        for call in (lambda: index.next(number, 0), lambda: index.next(0, number), lambda: index.size_of(number), lambda: index[number]):
            refuses(TypeError, call)
        for call in (lambda: index.blocks(0, number), lambda: index.blocks(0, 0, number), lambda: index.and_([number])):
            refuses(TypeError, call)
        for call in (lambda: index.top(number, {0: 1}), lambda: index.top(1, {0: number})):
            refuses(TypeError, call)
    for into in (b"12345678", memoryview(bytearray(8)), array.array("I", [0]), array.array("Q", [0])):
        refuses(TypeError, lambda: index.postings_into(into, 0))
    for weights in ({0: 0}, {0: -1}, {0: 2**26}, {0: 2**32}):
        refuses(ValueError, lambda: index.top(1, weights))
    for call in (lambda: index.or_([0] * 1025), lambda: index.top(1, {0: 1}, plan="none"), lambda: index.search("", "none")):
        refuses(ValueError, call)
    for call in (lambda: list(index.search(["a\nb"])), lambda: index.reply("a\nb"), lambda: index.reply("or 0", "none")):
        refuses(ValueError, call)
    assert index.next(0, 2**32 - 1) is None and list(index.blocks(0, 2**32 - 1)) == [] and len(index.and_([])) == 0 and index.top(1, {}) == []
    with index as same:
        assert same is index
    assert index.closed and repr(index) == f"<pefidx.Index {path!r}: closed>"
    for call in (lambda: index.next(0, 0), lambda: index.postings(0), lambda: index.or_([0]), lambda: index.top(1, {})):
        refuses(ValueError, call)
    for call in (lambda: index.search(""), lambda: index.size_of(0), lambda: index.count(0), lambda: index.reply("or 0")):
        refuses(ValueError, call)
    refuses(FileNotFoundError, lambda: pefidx.Index(path + "-none"))
    print("what is refused is refused by the exception of the table")


def bad_lists(folder):
    """Lists that are no posting lists, with the place of the first posting that cannot stand there."""
    for lists, sizes, term, place in [
        ([([0, 0], [1, 1])], [1], 0, 1),
        ([([0], [1]), ([1, 3, 2], [1, 1, 1])], [1, 1, 1, 1], 1, 2),
        ([([5], [1])], [1, 1], 0, 0),
        ([([], []), ([0, 1], [1, 0])], [1, 1], 1, 1),
        # Without sizes they are refused before there is an array of 4,294,967,295 sizes.
        ([([0], [1]), ([4_294_967_294, 3], [1, 1])], None, 1, 1),
        ([([4_294_967_294], [0])], None, 0, 0),
        # Numbers that are none of 32 bits, behind and before others that cannot stand there.
        ([([0], [1]), ([0, -1], [1, 1])], [1], 1, 1),
        ([([0, 2**32], [1, 1])], [1], 0, 1),
        ([([0, 1], [1, 2**32])], [1, 1], 0, 1),
        ([([0, 0, -1], [1, 1, 1])], [1], 0, 1),
        ([([0, 1], [-1, 2**40])], None, 0, 0),
    ]:
        try:
            pefidx.build(lists, os.path.join(folder, "none.pefindex"), sizes)
        except pefidx.BadPosting as bad:
            assert (bad.term, bad.place) == (term, place), (bad.term, bad.place)
            continue
        raise AssertionError("no refusal")
    build = lambda *words: pefidx.build(words[0], os.path.join(folder, "none.pefindex"), *words[1:])
    for lists, *sizes in ([([4_294_967_295], [1])],), ([([0], [1])], [2**32]), ([([0], [1])], [-1]), ([([0], [2**31]), ([0], [2**31])],):
        refuses(OverflowError, lambda: build(lists, *sizes))
    # The first format takes fewer documents, and less in a list.
    refuses(OverflowError, lambda: build([([2**28 - 1], [1])], None, "1"))
    much = [(range(17), [2**32 - 1] * 17)]
    refuses(pefidx.BadPosting, lambda: build(much, None, "1"))
    for lists in [([0], [])], [([0], [1, 1])], [([0],)]:
        refuses(ValueError, lambda: build(lists))
    for lists in [([0.0], [1])], [(["0"], [1])], [0]:
        refuses(TypeError, lambda: build(lists))
    assert not os.path.exists(os.path.join(folder, "none.pefindex"))


def nothing_built(folder):
    """The index of nothing, in each format: no list, and no document. It has 6 words."""
    path = os.path.join(folder, "nothing.pefindex")
    for format in pefidx.FORMATS:
        pefidx.build([], path, format=format)
        assert os.path.getsize(path) == 48
        with pefidx.Index(path) as index:
            assert (index.documents, index.terms, len(index.or_([]))) == (0, 0, 0)


def main():
    program, path = shlex.split(sys.argv[1]), sys.argv[2]
    count, seed = (int(word) for word in (sys.argv[3:] + ["2000", "1"][len(sys.argv) - 3 :])[:2])
    begun = time.monotonic()
    index = pefidx.Index(path)
    print(f"{index.documents} documents, {index.terms} terms, opened in {time.monotonic() - begun:.3f} s")
    lines = drawn(index, count, seed)
    same_replies(program, path, index, lines)
    same_search(program, path, index, lines[: count // 10])
    arrays(index)
    causes(path)
    lists, sizes = walked(index)
    with tempfile.TemporaryDirectory() as folder:
        bad_lists(folder)
        nothing_built(folder)
        same_ranges(index, lists, lines[: count // 5], folder)
        asked = [line for line, _ in lines]
        same_file(path, lists, sizes, folder, asked, answered(program, path, asked, "exhaustive")[0])
        refused_alike(program, path, folder, seed)
    index.close()
    print("all the same")


if __name__ == "__main__":
    main()
