/* Times the calls on query lines: asked INDEX PLAN < LINES, with PLAN as a number of pefidx.h. Each line is `next T D`, `and T..`, `or T..` or
 * `top K T..`, and none breaks a rule. It prints nanoseconds of the processor a line. */
#define _POSIX_C_SOURCE 200809L
#include <fcntl.h>
#include <stdio.h>
#include <stdlib.h>
#include <string.h>
#include <sys/mman.h>
#include <sys/stat.h>
#include <time.h>

#include "../c/pefidx.h"

enum { MOST_LINES = 100000, MOST_NUMBERS = 16, MOST_BEST = 1000 };

typedef struct {
    char verb;
    uint32_t numbers[MOST_NUMBERS];
    size_t given;
} line;

static line lines[MOST_LINES];

static double now(void)
{
    struct timespec at;
    clock_gettime(CLOCK_PROCESS_CPUTIME_ID, &at);
    return (double)at.tv_sec * 1e9 + (double)at.tv_nsec;
}

static size_t lines_read(void)
{
    static char text[1 << 12];
    size_t count = 0;
    while (count < MOST_LINES && fgets(text, sizeof text, stdin)) {
        line *into = &lines[count++];
        char *field = strtok(text, " \n");
        into->verb = field ? field[0] : '\0';
        while (into->given < MOST_NUMBERS && (field = strtok(NULL, " \n"))) {
            into->numbers[into->given++] = (uint32_t)strtoul(field, NULL, 10);
        }
    }
    return count;
}

static uint64_t *kept;
static uint8_t *maxima;
static size_t kept_count, maxima_count;

static uint32_t asked(const uint64_t *words, size_t count, uint32_t plan, const line *of,
    uint32_t *docs, size_t room)
{
    static const uint32_t weights[MOST_NUMBERS] = {1, 1, 1, 1, 1, 1, 1, 1, 1, 1, 1, 1, 1, 1, 1, 1};
    static pefidx_scored best[MOST_BEST];
    pefidx_posting found;
    size_t given, terms = of->given - 1;
    uint32_t ended;
    switch (of->verb) {
    case 'n':
        ended = pefidx_next(words, count, kept, kept_count, of->numbers[0], of->numbers[1], &found);
        return ended == PEFIDX_END ? PEFIDX_DONE : ended;
    case 'a':
        return pefidx_and(words, count, kept, kept_count, of->numbers, of->given, docs, room,
            &given);
    case 'o':
        return pefidx_or(words, count, kept, kept_count, of->numbers, of->given, docs, room,
            &given);
    default:
        return pefidx_top(words, count, kept, kept_count, maxima, maxima_count, plan,
            of->numbers + 1, terms, weights, terms, of->numbers[0], best, MOST_BEST, &given);
    }
}

int main(int argc, char **argv)
{
    struct stat of;
    pefidx_fault fault;
    const uint64_t *words;
    uint32_t *docs;
    size_t count, room, made, at;
    double begun;
    int file = argc == 3 ? open(argv[1], O_RDONLY) : -1;

    if (file < 0 || fstat(file, &of) || of.st_size < 48) {
        return 2;
    }
    words = mmap(NULL, (size_t)of.st_size, PROT_READ, MAP_SHARED, file, 0);
    count = (size_t)of.st_size / 8;
    if (words == MAP_FAILED || pefidx_check(words, count, &fault) != PEFIDX_DONE) {
        return 2;
    }
    room = (size_t)pefidx_documents(words, count) + 1;
    docs = malloc(room * sizeof *docs);
    made = lines_read();
    kept = malloc(count * sizeof *kept);
    maxima = malloc(8 + 4 * count);
    if (!docs || !made || !kept || !maxima
        || pefidx_keep(words, count, PEFIDX_STARTS, kept, count, &kept_count)
        || pefidx_maxima(words, count, kept, kept_count, maxima, 8 + 4 * count, &maxima_count)) {
        return 2;
    }
    begun = now();
    for (at = 0; at < made; at++) {
        if (asked(words, count, (uint32_t)strtoul(argv[2], NULL, 10), &lines[at], docs, room) != PEFIDX_DONE) {
            fprintf(stderr, "line %zu is refused\n", at);
            return 1;
        }
    }
    printf("%.0f\n", (now() - begun) / (double)made);
    free(docs);
    return 0;
}
