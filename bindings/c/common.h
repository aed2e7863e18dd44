/* SPDX-License-Identifier: Apache-2.0 */
/* What the programs of this folder share: index files as a map of their words, what a line asks,
 * and words of a command line. */
#ifndef PEFIDX_COMMON_H
#define PEFIDX_COMMON_H

#include <stddef.h>
#include <stdint.h>
#include <stdio.h>
#include <time.h>

#include "pefidx.h"

enum {
    CAUSE = 256, /* room for why something failed */
    MOST_FILES = PEFIDX_MOST_SEGMENTS /* so many are mapped together */
};

/* A map of files whose words were checked: an index, or the segments of one. */
typedef struct mapped {
    const uint64_t *words; /* of all files, each from the border of a page on */
    size_t count;
    pefidx_segment of[MOST_FILES]; /* the words of each */
    size_t files;
    const uint64_t *kept; /* by pefidx_keep, file after file; any pointer where there is nothing */
    size_t kept_ends[MOST_FILES + 1]; /* where that of each file ends, behind a 0 */
    const uint8_t *maxima;            /* of all files as of one; likewise */
    size_t maxima_count;
    uint32_t documents, terms; /* of all files */
    time_t written;            /* the latest time of a file */
} mapped;

/* Why files were refused: by which of them. */
typedef struct refusal {
    const char *path;
    char cause[CAUSE];
} refusal;

/* Maps the regular files of these paths, from 1 to MOST_FILES, read-only, and checks them: 1, or 0
 * with the refusal. Where a file is no index, or cannot be joined to those before it, that is the
 * fault as `pefidx` prints it. What cannot be opened is told before others are checked. */
int map_files(char *const *paths, size_t files, mapped *index, refusal *why);

/* Keeps the interval maxima of all files as of one, where there is memory for them. */
void keep_maxima(mapped *index);

void unmap_files(const mapped *index);

/* How many bytes the files have. */
uint64_t bytes_of_files(const mapped *index);

/* The reply to a line, as pefidx_reply gives that of a single file. */
uint32_t reply_of(const mapped *index, uint32_t plan, const char *line, size_t length, char *text,
    size_t room, size_t *count);

/* How many bytes the reply to a line takes at most, by the lengths of its lists. */
size_t most_bytes(const mapped *index, const char *line, size_t length);

/* How many postings the lists have that a line names. */
uint64_t postings_of(const mapped *index, const char *line, size_t length);

/* The plans by name, and at the end NULL. */
typedef struct plan {
    const char *name;
    uint32_t number;
} plan;
extern const plan plans[];
extern const uint32_t best_plan;

/* The plan of a name: 1, or 0 where there is none. */
int plan_named(const char *name, uint32_t *number);

/* Reads a text that is a number in a range, and nothing else: 1, or 0. */
int whole_number(const char *text, unsigned long least, unsigned long most, unsigned long *number);

/* Writes a member of a JSON object behind others. */
void put_text(FILE *to, const char *name, const char *text);

/* A monotonic time, in nanoseconds. */
int64_t time_now(void);

#endif
