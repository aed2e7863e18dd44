/* SPDX-License-Identifier: Apache-2.0 */
#define _DEFAULT_SOURCE /* MAP_ANONYMOUS */
#include "common.h"

#include <errno.h>
#include <fcntl.h>
#include <stdio.h>
#include <stdlib.h>
#include <string.h>
#include <sys/mman.h>
#include <sys/stat.h>
#include <unistd.h>

const plan plans[] = {
    {"exhaustive", PEFIDX_EXHAUSTIVE},
    {"wand", PEFIDX_WAND},
    {"maxscore", PEFIDX_MAXSCORE},
    {"intervals", PEFIDX_INTERVALS},
    {NULL, 0},
};
const uint32_t best_plan = PEFIDX_INTERVALS;

static int fails(char cause[CAUSE], const char *why)
{
    snprintf(cause, CAUSE, "%s", why);
    return 0;
}

/* Tells the check of a file that broke, and which file that is where there are several. */
static int broken(const mapped *index, size_t file, const pefidx_fault *fault, char cause[CAUSE])
{
    int length = snprintf(cause, CAUSE, "index K%u term %u part %llu", (unsigned)fault->check,
        (unsigned)fault->term, (unsigned long long)fault->part);
    if (index->files > 1) {
        snprintf(cause + length, CAUSE - (size_t)length, " segment %zu", file);
    }
    return 0;
}

/* Opens a file, to be mapped as one of several. */
static int open_file(const char *path, size_t number, mapped *index, int *file, char cause[CAUSE])
{
    const pefidx_fault of_length = {1, 0, 0};
    struct stat of;
    /* A pipe of this name would be waited for. */
    *file = open(path, O_RDONLY | O_NONBLOCK | O_CLOEXEC);
    if (*file < 0 || fstat(*file, &of)) {
        return fails(cause, strerror(errno));
    }
    if (!S_ISREG(of.st_mode)) {
        return fails(cause, "it is no regular file");
    }
    if (of.st_size == 0 || of.st_size % 8) {
        return broken(index, number, &of_length, cause);
    }
    index->of[number].count = (uint64_t)of.st_size / 8;
    index->written = index->written > of.st_mtime ? index->written : of.st_mtime;
    return 1;
}

/* Finds a place for each file in a range of addresses, and reserves it. */
static int reserve(mapped *index, char cause[CAUSE])
{
    const uint64_t page = (uint64_t)sysconf(_SC_PAGESIZE) / 8;
    uint64_t count = 0;
    size_t at;
    void *to;
    for (at = 0; at < index->files; at++) {
        index->of[at].first = count;
        count += (index->of[at].count + page - 1) / page * page;
        if (count > SIZE_MAX / 16) {
            return fails(cause, strerror(ENOMEM));
        }
    }
    to = mmap(NULL, (size_t)count * 8, PROT_NONE, MAP_PRIVATE | MAP_ANONYMOUS | MAP_NORESERVE, -1,
        0);
    if (to == MAP_FAILED) {
        return fails(cause, strerror(errno));
    }
    index->words = index->kept = to;
    index->maxima = to;
    index->count = (size_t)count;
    return 1;
}

/* Maps an open file at its place. Behind its end its last page reads as zeros. */
static int map_file(const mapped *index, size_t number, int file, char cause[CAUSE])
{
    void *to = (void *)(index->words + index->of[number].first);
    size_t bytes = (size_t)index->of[number].count * 8;
    return mmap(to, bytes, PROT_READ, MAP_SHARED | MAP_FIXED, file, 0) != MAP_FAILED
        || fails(cause, strerror(errno));
}

/* Maps files that are open. */
static int map_all(char *const *paths, const int *opened, mapped *index, refusal *why)
{
    size_t at = 0;
    why->path = paths[0];
    if (!reserve(index, why->cause)) {
        return 0;
    }
    while (at < index->files && map_file(index, at, opened[at], why->cause)) {
        at++;
    }
    if (at < index->files) {
        why->path = paths[at];
        unmap_files(index);
        return 0;
    }
    return 1;
}

/* How many numbers are kept at most beside the checked words of all files. */
static size_t most_kept(const mapped *index)
{
    size_t most = 0, at;
    for (at = 0; at < index->files; at++) {
        size_t count = (size_t)index->of[at].count;
        size_t lists = pefidx_terms(index->words + index->of[at].first, count);
        most += 2 * lists + 2 < count ? 2 * lists + 2 : count;
    }
    return most;
}

/* Keeps numbers beside the checked words of each file, where there is memory for them. */
static void keep(mapped *index)
{
    size_t room = most_kept(index), ends[MOST_FILES + 1] = {0}, at, given;
    uint64_t *kept = malloc(room * sizeof *kept), *fitted;
    for (at = 0; kept && at < index->files; at++) {
        const uint64_t *words = index->words + index->of[at].first;
        if (pefidx_keep(words, index->of[at].count, PEFIDX_STARTS, kept + ends[at],
                room - ends[at], &given) != PEFIDX_DONE) {
            free(kept);
            return;
        }
        ends[at + 1] = ends[at] + given;
    }
    if (kept) {
        fitted = realloc(kept, ends[at] * sizeof *kept);
        index->kept = fitted ? fitted : kept;
        memcpy(index->kept_ends, ends, sizeof ends);
    }
}

/* The interval maxima of all files as of one, as far as there is room for them. */
static uint32_t maxima_of(const mapped *index, uint8_t *maxima, size_t room, size_t *given)
{
    if (index->files > 1) {
        return pefidx_maxima_segments(index->words, index->count, index->of, index->files,
            index->kept, index->kept_ends[index->files], maxima, room, given);
    }
    return pefidx_maxima(index->words, index->of[0].count, index->kept, index->kept_ends[1],
        maxima, room, given);
}

void keep_maxima(mapped *index)
{
    size_t room = 8 + 4 * index->count, given = 0;
    uint8_t *maxima = NULL, *fitted;
    uint32_t ended;
    do {
        free(maxima);
        maxima = malloc(room);
        ended = maxima ? maxima_of(index, maxima, room, &given) : PEFIDX_NO_MEMORY;
        room = given;
    } while (ended == PEFIDX_ROOM);
    if (ended != PEFIDX_DONE) {
        free(maxima);
        return;
    }
    fitted = realloc(maxima, given);
    index->maxima = fitted ? fitted : maxima;
    index->maxima_count = given;
}

/* Checks the words of the files: of several also whether they can be joined. */
static uint32_t check(const mapped *index, pefidx_segment_fault *fault)
{
    pefidx_fault alone = {0, 0, 0};
    uint32_t ended;
    if (index->files > 1) {
        return pefidx_check_segments(index->words, index->count, index->of, index->files, fault);
    }
    ended = pefidx_check(index->words, index->of[0].count, &alone);
    *fault = (pefidx_segment_fault){0, 0, alone.check, alone.term, alone.part};
    return ended;
}

/* Checks the words of the files, counts what they have, and keeps numbers beside them. */
static int checked(mapped *index, char *const *paths, refusal *why)
{
    pefidx_segment_fault fault = {0, 0, 0, 0, 0};
    uint32_t ended = check(index, &fault);
    size_t at;
    why->path = paths[fault.segment];
    if (ended == PEFIDX_NO_INDEX) {
        return broken(index, fault.segment, &(pefidx_fault){fault.check, fault.term, fault.part},
            why->cause);
    }
    if (ended == PEFIDX_NO_JOIN) {
        snprintf(why->cause, CAUSE, "segments G%u segment %u", (unsigned)fault.rule,
            (unsigned)fault.segment);
        return 0;
    }
    if (ended != PEFIDX_DONE) {
        return fails(why->cause, "it is too large");
    }
    for (at = 0; at < index->files; at++) {
        const uint64_t *words = index->words + index->of[at].first;
        index->documents += pefidx_documents(words, index->of[at].count);
        index->terms = pefidx_terms(words, index->of[at].count);
    }
    keep(index);
    return 1;
}

int map_files(char *const *paths, size_t files, mapped *index, refusal *why)
{
    int opened[MOST_FILES], is_mapped = 1;
    size_t count = 0;
    *index = (mapped){.files = files};
    while (is_mapped && count < files) {
        why->path = paths[count];
        is_mapped = open_file(paths[count], count, index, &opened[count], why->cause);
        count++;
    }
    is_mapped = is_mapped && map_all(paths, opened, index, why);
    while (count > 0) {
        close(opened[--count]);
    }
    if (is_mapped && !checked(index, paths, why)) {
        unmap_files(index);
        is_mapped = 0;
    }
    return is_mapped;
}

void unmap_files(const mapped *index)
{
    munmap((void *)index->words, index->count * 8);
    if (index->kept_ends[index->files] > 0) {
        free((void *)index->kept);
    }
    if (index->maxima_count > 0) {
        free((void *)index->maxima);
    }
}

uint64_t bytes_of_files(const mapped *index)
{
    uint64_t words = 0;
    size_t at;
    for (at = 0; at < index->files; at++) {
        words += index->of[at].count;
    }
    return 8 * words;
}

/* What is left of a line. */
typedef struct rest {
    const char *at, *end;
} rest;

/* Goes to the next word; 0 behind the last. */
static int has_word(rest *of)
{
    while (of->at < of->end && *of->at == ' ') {
        of->at++;
    }
    return of->at < of->end;
}

/* Goes behind a word, and gives the number that it begins with, 2^32 - 1 for greater ones. */
static uint32_t number_of(rest *of)
{
    uint64_t number = 0;
    for (; of->at < of->end && *of->at >= '0' && *of->at <= '9'; of->at++) {
        number = number * 10 + (uint64_t)(*of->at - '0');
        number = number < UINT32_MAX ? number : UINT32_MAX;
    }
    while (of->at < of->end && *of->at != ' ') {
        of->at++;
    }
    return (uint32_t)number;
}

/* Asks each file for the length of a list, and adds them up. */
static uint64_t postings_in(const mapped *index, uint32_t term)
{
    uint64_t all = 0;
    size_t at;
    for (at = 0; at < index->files; at++) {
        const size_t *kept = index->kept_ends + at;
        uint32_t postings = 0;
        pefidx_count(index->words + index->of[at].first, index->of[at].count,
            index->kept + kept[0], kept[1] - kept[0], term, &postings);
        all += postings;
    }
    return all;
}

uint64_t postings_of(const mapped *index, const char *line, size_t length)
{
    rest of = {line, line + length};
    uint64_t all = 0;
    size_t terms;
    char verb;
    if (!has_word(&of)) {
        return 0;
    }
    verb = *of.at;
    number_of(&of);
    if (verb == 't' && has_word(&of)) {
        number_of(&of);
    }
    for (terms = verb == 'n' ? PEFIDX_MOST_TERMS - 1 : 0;
         has_word(&of) && terms < PEFIDX_MOST_TERMS; terms++) {
        all += postings_in(index, number_of(&of));
    }
    return all;
}

/* How many bytes the reply to a line takes at most by its K, where it is one of `top`. */
static size_t most_of_top(const char *line, size_t length)
{
    rest of = {line, line + length};
    if (!has_word(&of) || *of.at != 't') {
        return SIZE_MAX;
    }
    number_of(&of);
    return has_word(&of) ? 11 + 30 * (size_t)number_of(&of) : SIZE_MAX;
}

size_t most_bytes(const mapped *index, const char *line, size_t length)
{
    size_t all = 0, most = index->files > 1 ? most_of_top(line, length) : SIZE_MAX, at;
    for (at = 0; at < index->files; at++) {
        const size_t *kept = index->kept_ends + at;
        size_t bytes = 0;
        pefidx_room(index->words + index->of[at].first, index->of[at].count,
            index->kept + kept[0], kept[1] - kept[0], line, length, &bytes);
        all += bytes;
    }
    return all < most ? all : most;
}

uint32_t reply_of(const mapped *index, uint32_t plan, const char *line, size_t length, char *text,
    size_t room, size_t *count)
{
    if (index->files > 1) {
        return pefidx_reply_segments(index->words, index->count, index->of, index->files,
            index->kept, index->kept_ends[index->files], index->maxima, index->maxima_count, plan,
            line, length, text, room, count);
    }
    return pefidx_reply(index->words, index->of[0].count, index->kept, index->kept_ends[1],
        index->maxima, index->maxima_count, plan, line, length, text, room, count);
}

int plan_named(const char *name, uint32_t *number)
{
    const plan *at;
    for (at = plans; at->name; at++) {
        if (!strcmp(at->name, name)) {
            *number = at->number;
            return 1;
        }
    }
    return 0;
}

int whole_number(const char *text, unsigned long least, unsigned long most, unsigned long *number)
{
    char *end;
    unsigned long read;
    if (*text < '0' || *text > '9') {
        return 0;
    }
    errno = 0;
    read = strtoul(text, &end, 10);
    if (*end || errno || read < least || read > most) {
        return 0;
    }
    *number = read;
    return 1;
}

int64_t time_now(void)
{
    struct timespec at;
    clock_gettime(CLOCK_MONOTONIC, &at);
    return (int64_t)at.tv_sec * 1000000000 + at.tv_nsec;
}

void put_text(FILE *to, const char *name, const char *text)
{
    fprintf(to, ",\"%s\":\"", name);
    for (; *text; text++) {
        if ((unsigned char)*text < ' ' || *text == '"' || *text == '\\') {
            fprintf(to, "\\u%04x", (unsigned)*text);
        } else {
            fputc(*text, to);
        }
    }
    fputc('"', to);
}
