/* Times the calls over one index file: timing INDEX. Each line is nanoseconds of the processor a call. */
#define _POSIX_C_SOURCE 200809L
#include <fcntl.h>
#include <stdio.h>
#include <stdlib.h>
#include <sys/mman.h>
#include <sys/stat.h>
#include <time.h>

#include "../c/pefidx.h"

static double now(void)
{
    struct timespec at;
    clock_gettime(CLOCK_PROCESS_CPUTIME_ID, &at);
    return (double)at.tv_sec * 1e9 + (double)at.tv_nsec;
}

static uint64_t state = 88172645463325252ull;

static uint32_t drawn(uint32_t below)
{
    state ^= state << 13;
    state ^= state >> 7;
    state ^= state << 17;
    return (uint32_t)((state >> 16) % below);
}

int main(int argc, char **argv)
{
    enum { NEXTS = 2000000, TOPS = 2000, ROOM = 1 << 16 };
    static pefidx_posting list[ROOM];
    static pefidx_scored best[10];
    struct stat of;
    pefidx_fault fault;
    pefidx_posting found;
    const uint64_t *words;
    uint64_t seen = 0, *kept;
    uint8_t *maxima;
    uint32_t documents, terms, plan;
    size_t count, kept_count, maxima_count, given;
    double begun;
    int i, file = argc == 2 ? open(argv[1], O_RDONLY) : -1;

    if (file < 0 || fstat(file, &of) || of.st_size < 48) {
        return 2;
    }
    words = mmap(NULL, (size_t)of.st_size, PROT_READ, MAP_SHARED, file, 0);
    count = (size_t)of.st_size / 8;
    if (words == MAP_FAILED) {
        return 2;
    }
    begun = now();
    if (pefidx_check(words, count, &fault) != PEFIDX_DONE) {
        fprintf(stderr, "index K%u term %u part %llu\n", (unsigned)fault.check, (unsigned)fault.term, (unsigned long long)fault.part);
        return 1;
    }
    printf("check %.0f, for each of %zu words %.2f\n", now() - begun, count, (now() - begun) / (double)count);
    documents = pefidx_documents(words, count);
    terms = pefidx_terms(words, count);
    kept = malloc(count * sizeof *kept);
    begun = now();
    if (!kept || pefidx_keep(words, count, PEFIDX_STARTS, kept, count, &kept_count)) {
        return 1;
    }
    printf("keep %.0f, %zu numbers\n", now() - begun, kept_count);
    maxima = malloc(8 + 4 * count);
    begun = now();
    if (!maxima
        || pefidx_maxima(words, count, kept, kept_count, maxima, 8 + 4 * count, &maxima_count)) {
        return 1;
    }
    printf("maxima %.0f, %zu bytes\n", now() - begun, maxima_count);

    begun = now();
    for (i = 0; i < NEXTS; i++) {
        seen += pefidx_next(words, count, kept, kept_count, drawn(terms), drawn(documents), &found);
    }
    printf("next %.0f\n", (now() - begun) / NEXTS);

    begun = now();
    seen = 0;
    for (uint32_t term = 0; term < terms && seen < 100000000; term++) {
        uint32_t place = 0;
        do {
            pefidx_postings(words, count, kept, kept_count, term, place, list, ROOM, &given);
            seen += given;
            place += (uint32_t)given;
        } while (given == ROOM);
    }
    printf("postings, for each of %llu %.2f\n", (unsigned long long)seen, (now() - begun) / (double)(seen ? seen : 1));

    for (plan = PEFIDX_EXHAUSTIVE; plan <= PEFIDX_INTERVALS; plan++) {
        state = 88172645463325252ull;
        begun = now();
        for (i = 0; i < TOPS; i++) {
            uint32_t asked[2] = {drawn(terms), drawn(terms)}, weights[2] = {1, 2};
            if (pefidx_top(words, count, kept, kept_count, maxima, maxima_count, plan, asked, 2,
                    weights, 2, 10, best, 10, &given)
                != PEFIDX_DONE) {
                return 1;
            }
        }
        printf("top 10 of two terms by plan %u %.0f\n", (unsigned)plan, (now() - begun) / TOPS);
    }
    return 0;
}
