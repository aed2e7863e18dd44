/* Builds the index of two lists as a plain file and as a packed one, checks it, asks it, and shows how other words are refused. */
#include <stdio.h>
#include <stdlib.h>

#include "pefidx.h"

/* Three documents. Term 0 is twice in document 0 and once in document 2, and term 1 four times in document 2. */
static const uint32_t lengths[] = {2, 1};
static const uint32_t docs[] = {0, 2, 2};
static const uint32_t freqs[] = {2, 1, 4};
static const uint32_t sizes[] = {2, 0, 5};

static int ended(const char *call, uint32_t status, uint32_t wanted)
{
    if (status == wanted) {
        return 0;
    }
    fprintf(stderr, "%s ended with %u, not with %u\n", call, (unsigned)status, (unsigned)wanted);
    return 1;
}

static int built(uint32_t format, uint64_t *words, size_t room, size_t *count)
{
    pefidx_bad_posting bad;
    return ended("pefidx_build", pefidx_build(format, lengths, 2, docs, 3, freqs, 3, sizes, 3, words, room, count, &bad), PEFIDX_DONE);
}

static int asked(const uint64_t *words, size_t count, const uint64_t *kept, size_t kept_count,
    const uint8_t *maxima, size_t maxima_count)
{
    const uint32_t terms[] = {0, 1}, weights[] = {1, 10};
    pefidx_posting found, list[8];
    pefidx_scored best[2];
    uint32_t matches[3], size, postings;
    char reply[64];
    size_t given, number, i;

    printf("%u documents, %u terms\n", (unsigned)pefidx_documents(words, count), (unsigned)pefidx_terms(words, count));
    if (ended("pefidx_size_of", pefidx_size_of(words, count, 2, &size), PEFIDX_DONE)) {
        return 1;
    }
    printf("document 2 has size %u\n", (unsigned)size);
    if (ended("pefidx_next", pefidx_next(words, count, kept, kept_count, 0, 1, &found),
            PEFIDX_DONE)) {
        return 1;
    }
    printf("term 0 from document 1 on: %u %u\n", (unsigned)found.doc, (unsigned)found.freq);
    if (ended("pefidx_next", pefidx_next(words, count, kept, kept_count, 0, 3, &found),
            PEFIDX_END)) {
        return 1;
    }
    if (ended("pefidx_postings",
            pefidx_postings(words, count, kept, kept_count, 0, 0, list, 8, &given), PEFIDX_DONE)) {
        return 1;
    }
    if (ended("pefidx_count", pefidx_count(words, count, kept, kept_count, 0, &postings),
            PEFIDX_DONE)) {
        return 1;
    }
    printf("term 0, %u postings:", (unsigned)postings);
    for (i = 0; i < given; i++) {
        printf(" %u:%u", (unsigned)list[i].doc, (unsigned)list[i].freq);
    }
    if (ended("pefidx_and",
            pefidx_and(words, count, kept, kept_count, terms, 2, matches, 3, &number),
            PEFIDX_DONE)) {
        return 1;
    }
    printf("\nboth: %zu, first %u\n", number, (unsigned)matches[0]);
    if (ended("pefidx_or", pefidx_or(words, count, kept, kept_count, terms, 2, matches, 1, &number),
            PEFIDX_ROOM)) {
        return 1;
    }
    printf("any: %zu, first %u\n", number, (unsigned)matches[0]);
    if (ended("pefidx_top",
            pefidx_top(words, count, kept, kept_count, maxima, maxima_count, PEFIDX_INTERVALS,
                terms, 2, weights, 2, 2, best, 2, &number),
            PEFIDX_DONE)) {
        return 1;
    }
    for (i = 0; i < number; i++) {
        printf("best: %u:%llu\n", (unsigned)best[i].doc, (unsigned long long)best[i].score);
    }
    if (ended("pefidx_reply",
            pefidx_reply(words, count, kept, kept_count, maxima, maxima_count, PEFIDX_INTERVALS,
                "top 2 0 1*10", 12, reply, sizeof reply, &number),
            PEFIDX_DONE)) {
        return 1;
    }
    printf("top 2 0 1*10: %.*s", (int)number, reply);
    return ended("pefidx_next", pefidx_next(words, count, kept, kept_count, 2, 0, &found),
        PEFIDX_NO_TERM);
}

/* Asks with nothing kept, and then with what is kept of the lists and their interval maxima. */
static int asked_twice(const uint64_t *words, size_t count)
{
    uint64_t kept[8];
    uint8_t maxima[64];
    size_t starts, bytes;
    return asked(words, count, kept, 0, maxima, 0)
        || ended("pefidx_keep", pefidx_keep(words, count, PEFIDX_STARTS, kept, 8, &starts),
            PEFIDX_DONE)
        || ended("pefidx_maxima",
            pefidx_maxima(words, count, kept, starts, maxima, sizeof maxima, &bytes), PEFIDX_DONE)
        || asked(words, count, kept, starts, maxima, bytes);
}

/* Words of which one bit is changed, and the first few of them. */
static int refused(uint64_t *words, size_t count)
{
    pefidx_fault fault;
    int wrong;
    words[0] ^= 1;
    wrong = ended("pefidx_check", pefidx_check(words, count, &fault), PEFIDX_NO_INDEX);
    printf("word 0 changed: check K%u\n", (unsigned)fault.check);
    words[0] ^= 1;
    wrong |= ended("pefidx_check", pefidx_check(words, 5, &fault), PEFIDX_NO_INDEX);
    printf("5 words: check K%u\n", (unsigned)fault.check);
    return wrong;
}

/* Builds the index in a format, and asks it. */
static int tried(uint32_t format)
{
    size_t room = 64, count;
    pefidx_fault fault;
    int wrong;
    uint64_t *words = malloc(room * sizeof *words);
    if (!words) {
        return 1;
    }
    wrong = built(format, words, room, &count);
    if (!wrong) {
        /* The rest of the room is given back, so that a look behind the words is seen. */
        uint64_t *fitted = realloc(words, count * sizeof *words);
        words = fitted ? fitted : words;
        wrong = ended("pefidx_check", pefidx_check(words, count, &fault), PEFIDX_DONE) || asked_twice(words, count) || refused(words, count);
    }
    free(words);
    return wrong;
}

int main(void)
{
    return tried(PEFIDX_FORMAT_TWO) || tried(PEFIDX_PACKED);
}
