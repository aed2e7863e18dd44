/* SPDX-License-Identifier: Apache-2.0 */
/* pefidx-bench: asks the lines of a file by every plan, and tells how long that takes
 * (pefidx-bench.1). */
#define _POSIX_C_SOURCE 200809L
#include <errno.h>
#include <pthread.h>
#include <stdatomic.h>
#include <stdio.h>
#include <stdlib.h>
#include <string.h>
#include <unistd.h>

#include "common.h"

enum { PLANS = 8, MILLISECOND = 1000000 };
static const char name[] = "pefidx-bench";

typedef struct line {
    const char *text;
    size_t length;
    uint64_t reply; /* a sum of its bytes, by the first plan */
} line;

typedef struct bench {
    mapped index;
    char *path;
    const char *asked;
    unsigned long threads, rounds;
    line *lines;
    size_t count;
    uint64_t postings;
    int64_t opened, kept;     /* how long it took to open the index, and to make its maxima */
    int64_t *least[PLANS]; /* the least time of each line, by each plan */
    int64_t walls[PLANS];          /* and the least time of all */
    /* Of the plan that is asked now: */
    unsigned plan;
    int is_first, is_timed;
    atomic_size_t next;
    atomic_ulong differ, failed;
} bench;

static int fails(const char *what, const char *why)
{
    fprintf(stderr, "%s: %s: %s\n", name, what, why);
    return 0;
}

/* The bytes of a file; NULL where it cannot be read, which is told. */
static char *bytes_of(const char *path, size_t *count)
{
    FILE *from = fopen(path, "rb");
    size_t room = 1 << 16;
    char *bytes = from ? malloc(room) : NULL, *more = bytes;
    *count = 0;
    while (more && (*count += fread(bytes + *count, 1, room - *count, from)) == room) {
        room *= 2;
        more = realloc(bytes, room);
        bytes = more ? more : bytes;
    }
    if (!more || ferror(from)) {
        fails(path, strerror(errno));
        free(bytes);
        bytes = NULL;
    }
    if (from) {
        fclose(from);
    }
    return bytes;
}

/* Cuts the text into lines; a last one need not have a newline. */
static int cut(bench *b, const char *text, size_t count)
{
    const char *at = text, *end = text + count, *newline;
    size_t room = 0;
    for (; at < end; at = newline + 1) {
        newline = memchr(at, '\n', (size_t)(end - at));
        newline = newline ? newline : end;
        if (b->count == room) {
            line *more = realloc(b->lines, (room = 2 * room + 1024) * sizeof *more);
            if (!more) {
                return fails(b->asked, strerror(errno));
            }
            b->lines = more;
        }
        b->lines[b->count++] = (line){at, (size_t)(newline - at), 0};
        b->postings += postings_of(&b->index, at, (size_t)(newline - at));
    }
    return b->count > 0 || fails(b->asked, "it has no line");
}

/* FNV-1a of 64 bits. */
static uint64_t sum_of(const char *text, size_t count)
{
    uint64_t sum = 14695981039346656037u;
    size_t at;
    for (at = 0; at < count; at++) {
        sum = (sum ^ (unsigned char)text[at]) * 1099511628211u;
    }
    return sum;
}

/* Asks one line, in room that is made larger where it has to be. */
static int asked(bench *b, size_t number, char **text, size_t *room)
{
    line *of = &b->lines[number];
    size_t most = most_bytes(&b->index, of->text, of->length), count = 0;
    int64_t *least = &b->least[b->plan][number], begun, took;
    uint32_t ended = PEFIDX_NO_MEMORY;
    if (most > *room) {
        free(*text);
        *text = malloc(most);
        *room = *text ? most : 0;
    }
    begun = time_now();
    if (*text) {
        ended = reply_of(&b->index, plans[b->plan].number, of->text, of->length, *text, *room,
            &count);
    }
    took = time_now() - begun;
    if (ended != PEFIDX_DONE) {
        return 0;
    }
    if (b->is_timed && (!*least || took < *least)) {
        *least = took;
    }
    if (b->is_first) {
        of->reply = sum_of(*text, count);
    } else if (sum_of(*text, count) != of->reply) {
        b->differ++;
    }
    return 1;
}

/* Asks lines as long as there are some. */
static void *ask_lines(void *given)
{
    bench *b = given;
    char *text = NULL;
    size_t room = 0, number;
    while ((number = b->next++) < b->count) {
        if (!asked(b, number, &text, &room)) {
            b->failed++;
        }
    }
    free(text);
    return NULL;
}

/* Asks all lines once by a plan, from all threads. */
static int asked_by(bench *b, unsigned plan)
{
    pthread_t *threads = malloc(b->threads * sizeof *threads);
    unsigned long made = 0;
    int64_t begun = time_now(), took;
    b->plan = plan;
    b->next = 0;
    while (threads && made < b->threads
        && !pthread_create(&threads[made], NULL, ask_lines, b)) {
        made++;
    }
    if (made < b->threads) {
        b->failed++;
    }
    while (made > 0) {
        pthread_join(threads[--made], NULL);
    }
    free(threads);
    took = time_now() - begun;
    if (b->is_timed && (!b->walls[plan] || took < b->walls[plan])) {
        b->walls[plan] = took;
    }
    return !b->failed || fails(b->asked, "memory or a thread was refused");
}

/* Asks by every plan in turn: a round that is not timed, and those that are. */
static int all_asked(bench *b)
{
    unsigned plan;
    unsigned long round;
    for (plan = 0; plans[plan].name; plan++) {
        b->least[plan] = calloc(b->count, sizeof *b->least[plan]);
        if (!b->least[plan]) {
            return fails(b->asked, strerror(errno));
        }
    }
    for (round = 0; round <= b->rounds; round++) {
        b->is_timed = round > 0;
        for (plan = 0; plans[plan].name; plan++) {
            b->is_first = round == 0 && plan == 0;
            if (!asked_by(b, plan)) {
                return 0;
            }
        }
    }
    return 1;
}

static int by_size(const void *one, const void *other)
{
    int64_t a = *(const int64_t *)one, b = *(const int64_t *)other;
    return (a > b) - (a < b);
}

/* Prints the times of a plan, in microseconds. */
static void put_plan(const bench *b, unsigned plan)
{
    static const struct {
        const char *key;
        unsigned of_thousand;
    } parts[] = {{"q50", 500}, {"q90", 900}, {"q95", 950}, {"q99", 990}, {"q999", 999}};
    int64_t *times = b->least[plan], all = 0;
    size_t at;
    qsort(times, b->count, sizeof *times, by_size);
    for (at = 0; at < b->count; at++) {
        all += times[at];
    }
    printf("%s\n  {\"plan\":\"%s\",\"avg\":%.3f", plan ? "," : "", plans[plan].name,
        (double)all / 1e3 / (double)b->count);
    for (at = 0; at < sizeof parts / sizeof *parts; at++) {
        printf(",\"%s\":%.3f", parts[at].key,
            (double)times[(b->count - 1) * parts[at].of_thousand / 1000] / 1e3);
    }
    printf(",\"lines_a_second\":%.0f}", (double)b->count * 1e9 / (double)b->walls[plan]);
}

static void put_all(const bench *b)
{
    unsigned plan;
    printf("{\"open_ms\":%.3f,\"maxima_ms\":%.3f", (double)b->opened / MILLISECOND,
        (double)b->kept / MILLISECOND);
    put_text(stdout, "index", b->path);
    printf(",\"bytes\":%llu,\"maxima_bytes\":%zu,\"documents\":%u,\"terms\":%u",
        (unsigned long long)bytes_of_files(&b->index), b->index.maxima_count,
        (unsigned)b->index.documents,
        (unsigned)b->index.terms);
    printf(",\n \"lines\":%zu,\"postings\":%llu,\"threads\":%lu,\"rounds\":%lu", b->count,
        (unsigned long long)b->postings, b->threads, b->rounds);
    printf(",\n \"plans\":[");
    for (plan = 0; plans[plan].name; plan++) {
        put_plan(b, plan);
    }
    printf("],\n \"same\":%s}\n", b->differ ? "false" : "true");
}

/* Takes the words of the command line; 0 where they are none of it. */
static int taken_words(int argc, char **argv, bench *b)
{
    int letter;
    while ((letter = getopt(argc, argv, "t:r:")) != -1) {
        unsigned long *number = letter == 't' ? &b->threads : &b->rounds;
        if (letter == '?') {
            return 0;
        }
        if (!whole_number(optarg, 1, 1024, number)) {
            return fails(optarg, "it is no number from 1 to 1024");
        }
    }
    if (argc - optind != 2) {
        return 0;
    }
    b->path = argv[optind];
    b->asked = argv[optind + 1];
    return 1;
}

/* Opens the index, and reads the lines. */
static int opened(bench *b)
{
    refusal why;
    char *text;
    size_t count;
    int64_t begun = time_now();
    if (!map_files(&b->path, 1, &b->index, &why)) {
        return fails(why.path, why.cause);
    }
    b->opened = time_now() - begun;
    keep_maxima(&b->index);
    b->kept = time_now() - begun - b->opened;
    text = bytes_of(b->asked, &count);
    return text && cut(b, text, count);
}

int main(int argc, char **argv)
{
    bench b = {.threads = 1, .rounds = 5};
    if (!taken_words(argc, argv, &b)) {
        fprintf(stderr, "usage: %s [-t THREADS] [-r ROUNDS] INDEX LINES\n", name);
        return 2;
    }
    if (!opened(&b) || !all_asked(&b)) {
        return 1;
    }
    put_all(&b);
    if (fflush(stdout)) {
        fails("standard output", strerror(errno));
        return 1;
    }
    return b.differ ? 1 : 0;
}
