/* SPDX-License-Identifier: Apache-2.0 */
/* What the two files of pefidx-serve share. */
#ifndef PEFIDX_CONNECTIONS_H
#define PEFIDX_CONNECTIONS_H

#include <pthread.h>
#include <stdatomic.h>
#include <sys/socket.h>
#include <sys/types.h>

#include "common.h"

enum {
    MEGABYTE = 1 << 20,
    BUCKETS = 320 /* of times: eight for each power of two of microseconds */
};
#define SECOND INT64_C(1000000000)
#define FREE UINT64_MAX

/* A socket that listens, and its address: HOST:PORT in numbers, or the path of a Unix socket, and
 * which file that is. */
typedef struct listening {
    int socket, is_file;
    char name[CAUSE];
    dev_t device;
    ino_t inode;
} listening;

typedef struct map {
    mapped index;
    unsigned users; /* under the server's lock */
} map;

typedef struct options {
    unsigned long connections, of_machine, idle, drain, reply, held;
    uint32_t plan;
    char *const *paths; /* of the files */
    size_t files;
    const char *name, *address, *status; /* the first is that of all files */
} options;

typedef struct server {
    options given;
    listening lines, status;
    int ends[2]; /* the pipe; its second end is closed when the server ends */
    atomic_int ending;
    atomic_uint waiting; /* how many lines wait for memory of long replies */
    map *_Atomic current;
    atomic_ullong took[BUCKETS]; /* how many lines took so long */
    pthread_mutex_t lock;        /* of all that follows */
    pthread_cond_t changed;
    uint64_t *places; /* the machine of each connection, or FREE */
    unsigned long connections, reloads, wanted;
    size_t held; /* bytes for long replies */
    uint64_t before[2][BUCKETS]; /* what stood in `took` a minute and two before */
    time_t refused;
    refusal refusal; /* why files were last refused */
} server;

/* Tells the log. */
void say(const char *what, const char *why);

/* Begins a thread that nobody waits for; 0 where it is refused. */
int begin_thread(void *(*does)(void *), void *given);

/* Listens at HOST:PORT, [IPV6]:PORT, :PORT (each address of the machine), or the path of a Unix
 * socket, which has a slash: 1, or 0 with the cause. A Unix socket on which nobody listens is taken
 * over. Port 0 is any that is free. */
int listen_at(const char *address, listening *made, char cause[CAUSE]);

/* Takes the Unix socket's name away, if it still is the file that was made here. */
void forget_name(const listening *made);

/* The map of now, with one user more; NULL before there is one. */
map *map_of_now(server *s);

/* Lets a map, if it is one, go. */
void let_go(server *s, map *of);

/* The greatest time of a bucket, in microseconds. */
uint64_t bucket_end(unsigned bucket);

/* Lets the place of a connection be another's. */
void free_place(server *s, long place);

/* Gives a connection its thread, which answers its lines and closes it; 0 where memory or a thread
 * was refused. */
int begin_connection(server *s, int socket, long place);

#endif
