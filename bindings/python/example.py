#!/usr/bin/env python3
"""From a PISA collection to answers: an index, weighted queries, the best documents, and what each plan takes.

    example.py NAME [QUERIES]

NAME.docs, NAME.freqs and NAME.sizes are the collection, for example crates/pefidx/data/small. Copy what you need.
"""

import array
import os
import random
import sys
import tempfile
import time

import pefidx

# 1. The collection. A PISA file is sequences of numbers of 32 bits, each behind its length; the first of .docs has the number of documents.


def sequences(path):
    """The sequences of a file, as arrays. With numpy, numpy.fromfile(path, "<u4") reads it faster."""
    numbers = array.array("I")
    with open(path, "rb") as file:
        numbers.frombytes(file.read())
    at = 0
    while at < len(numbers):
        yield numbers[at + 1 : at + 1 + numbers[at]]
        at += 1 + numbers[at]


def collection(name):
    """The posting lists of a collection, one by one, and the sizes of its documents."""
    docs = sequences(name + ".docs")
    next(docs)
    return zip(docs, sequences(name + ".freqs")), next(sequences(name + ".sizes"))


# 2. The index. It may be built once, by this or by `pefidx build`, and opened as often as you like.


def built(name, path):
    lists, sizes = collection(name)
    pefidx.build(lists, path, sizes)
    return pefidx.Index(path)


# 3. Queries with weights. Terms are line numbers of PISA's lexicon. Here they are drawn by the lengths of their lists, and a term that is in
# few documents weighs more. The score is the sum of weight times frequency: for BM25 store quantized scores as frequencies.


def drawn_queries(index, count):
    lengths = [index.count(term) for term in range(index.terms)]
    terms = [term for term, length in enumerate(lengths) if length]
    draw = random.Random(1)
    for _ in range(count if terms else 0):
        asked = draw.choices(terms, [lengths[term] for term in terms], k=3)
        yield {term: min(65535, 1 + index.documents // lengths[term]) for term in asked}


# 4. What each plan takes. No answer depends on the plan.


def timed(index, queries):
    for plan in pefidx.PLANS:
        begun = time.perf_counter()
        for weights in queries:
            index.top(10, weights, plan)
        print(f"{plan:>10}: {1e6 * (time.perf_counter() - begun) / len(queries):.0f} microseconds a query")


def main():
    if len(sys.argv) not in (2, 3):
        sys.exit(__doc__)
    with tempfile.TemporaryDirectory() as folder, built(sys.argv[1], os.path.join(folder, "index")) as index:
        print(index)
        queries = list(drawn_queries(index, int(sys.argv[2]) if len(sys.argv) == 3 else 100))
        for weights in queries[:3]:
            print("query", weights)
            for doc, score in index.top(3, weights):
                print(f"    document {doc} of size {index.size_of(doc)}: {score}")
            print(f"    in {len(index.or_(weights))} documents, all terms in {len(index.and_(weights))}")
        if queries:
            timed(index, queries)
        # The same queries as text, as `pefidx query` takes them.
        lines = [" ".join(["top 3", *(f"{term}*{weight}" for term, weight in weights.items())]) for weights in queries[:3]]
        for line, reply in zip(lines, index.search(lines)):
            print(line, "->", reply)


if __name__ == "__main__":
    main()
