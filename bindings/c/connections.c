/* SPDX-License-Identifier: Apache-2.0 */
/* Connections of pefidx-serve: where it listens, and what a client asks and gets. */
#define _DEFAULT_SOURCE /* flock */
#include "connections.h"

#include <errno.h>
#include <fcntl.h>
#include <netdb.h>
#include <netinet/in.h>
#include <netinet/tcp.h>
#include <poll.h>
#include <stdio.h>
#include <stdlib.h>
#include <string.h>
#include <sys/file.h>
#include <sys/stat.h>
#include <sys/un.h>
#include <unistd.h>

enum {
    HELD = 65536,  /* so much of a line is held, which tells that it is too long */
    PIECE = 16384, /* so much is read at once */
    ROOM = 65536,  /* a reply that may be longer gets room of its own */
    FULL = 16384,  /* so many bytes of replies are sent */
    COPIES = 3,    /* a long reply is held so often while it is made */
    LINGER = 1000  /* milliseconds that a client has to read what was sent */
};
static const int64_t WAIT = 5000000; /* so many nanoseconds replies wait for others */

typedef struct connection {
    server *of;
    map *map;     /* while lines are answered */
    long place;
    int socket, is_stopped;
    int64_t until; /* when a whole line must have come */
    int64_t since; /* when the first of the replies that wait was made */
    size_t held, used;
    size_t holds; /* bytes of a long reply that is sent */
    char line[HELD];   /* what was read of a line that has not ended: `held` bytes */
    char piece[PIECE];
    char replies[ROOM]; /* that wait: `used` bytes */
} connection;

void say(const char *what, const char *why)
{
    fprintf(stderr, "pefidx-serve: %s: %s\n", what, why);
}

int begin_thread(void *(*does)(void *), void *given)
{
    pthread_attr_t detached;
    pthread_t thread;
    int begun;
    if (pthread_attr_init(&detached)) {
        return 0;
    }
    pthread_attr_setdetachstate(&detached, PTHREAD_CREATE_DETACHED);
    begun = !pthread_create(&thread, &detached, does, given);
    pthread_attr_destroy(&detached);
    return begun;
}

/* Tells a cause. Each call that gives 0 has told one. */
static int fails(char cause[CAUSE], const char *why)
{
    snprintf(cause, CAUSE, "%s", why);
    return 0;
}

/* Whether nobody listens at the Unix socket that has this name. */
static int is_left(const struct sockaddr_un *at)
{
    struct stat of;
    int asks = socket(AF_UNIX, SOCK_STREAM | SOCK_NONBLOCK | SOCK_CLOEXEC, 0), refused;
    refused = !lstat(at->sun_path, &of) && S_ISSOCK(of.st_mode) && asks >= 0
        && connect(asks, (const struct sockaddr *)at, sizeof *at) && errno == ECONNREFUSED;
    if (asks >= 0) {
        close(asks);
    }
    return refused;
}

static int bind_file(int to, const struct sockaddr_un *at)
{
    if (!bind(to, (const struct sockaddr *)at, sizeof *at)) {
        return 1;
    }
    if (errno == EADDRINUSE) {
        if (is_left(at)) {
            return !unlink(at->sun_path) && !bind(to, (const struct sockaddr *)at, sizeof *at);
        }
        errno = EADDRINUSE;
    }
    return 0;
}

/* The folder of a path, locked, so that of two servers one takes a socket over; -1 without one. */
static int locked_folder(const char *path)
{
    char name[CAUSE];
    int length = (int)(strrchr(path, '/') - path) + 1, folder;
    snprintf(name, sizeof name, "%.*s", length, path);
    folder = open(name, O_RDONLY | O_DIRECTORY | O_CLOEXEC);
    if (folder >= 0) {
        flock(folder, LOCK_EX);
    }
    return folder;
}

static int listen_file(const char *path, listening *made, char cause[CAUSE])
{
    struct sockaddr_un at = {.sun_family = AF_UNIX};
    struct stat of;
    int folder, listens;
    if (strlen(path) >= sizeof at.sun_path) {
        return fails(cause, strerror(ENAMETOOLONG));
    }
    memcpy(at.sun_path, path, strlen(path));
    made->socket = socket(AF_UNIX, SOCK_STREAM | SOCK_CLOEXEC, 0);
    if (made->socket < 0) {
        return fails(cause, strerror(errno));
    }
    folder = locked_folder(path);
    listens = bind_file(made->socket, &at) && !listen(made->socket, SOMAXCONN) && !lstat(path, &of);
    if (!listens) {
        fails(cause, strerror(errno));
        close(made->socket);
    } else {
        snprintf(made->name, sizeof made->name, "%s", path);
        made->is_file = 1;
        made->device = of.st_dev;
        made->inode = of.st_ino;
    }
    if (folder >= 0) {
        close(folder);
    }
    return listens;
}

/* The address at which a socket listens, in numbers. */
static void name_of(int socket, char name[CAUSE])
{
    struct sockaddr_storage at;
    socklen_t size = sizeof at;
    char host[NI_MAXHOST] = "", port[NI_MAXSERV] = "";
    const int numeric = NI_NUMERICHOST | NI_NUMERICSERV;
    if (!getsockname(socket, (struct sockaddr *)&at, &size)) {
        getnameinfo((struct sockaddr *)&at, size, host, sizeof host, port, sizeof port, numeric);
    }
    snprintf(name, CAUSE, strchr(host, ':') ? "[%.64s]:%s" : "%.64s:%s", host, port);
}

/* Listens at one of the addresses of a name. */
static int listen_one(const struct addrinfo *of, int all, listening *made)
{
    const int one = 1, off = 0;
    int to = socket(of->ai_family, SOCK_STREAM | SOCK_CLOEXEC, 0), why;
    if (to < 0) {
        return 0;
    }
    setsockopt(to, SOL_SOCKET, SO_REUSEADDR, &one, sizeof one);
    if (all && of->ai_family == AF_INET6) {
        setsockopt(to, IPPROTO_IPV6, IPV6_V6ONLY, &off, sizeof off);
    }
    if (bind(to, of->ai_addr, of->ai_addrlen) || listen(to, SOMAXCONN)) {
        why = errno;
        close(to);
        errno = why;
        return 0;
    }
    made->socket = to;
    name_of(to, made->name);
    return 1;
}

/* Listens at the first address of a host, of a family, at which it can. */
static int listen_family(int family, const char *host, const char *port, listening *made,
    char cause[CAUSE])
{
    const struct addrinfo *at;
    struct addrinfo wanted = {0}, *found;
    int why, listens = 0;
    wanted.ai_family = family;
    wanted.ai_socktype = SOCK_STREAM;
    wanted.ai_flags = AI_NUMERICSERV | AI_PASSIVE;
    why = getaddrinfo(host, port, &wanted, &found);
    if (why) {
        return fails(cause, why == EAI_SYSTEM ? strerror(errno) : gai_strerror(why));
    }
    for (at = found; at && !listens; at = at->ai_next) {
        listens = listen_one(at, !host, made) || fails(cause, strerror(errno));
    }
    freeaddrinfo(found);
    return listens;
}

int listen_at(const char *address, listening *made, char cause[CAUSE])
{
    const char *colon = strrchr(address, ':');
    char host[CAUSE];
    unsigned long port;
    size_t length;
    *made = (listening){.socket = -1};
    if (strchr(address, '/')) {
        return listen_file(address, made, cause);
    }
    if (!colon || (size_t)(colon - address) >= sizeof host) {
        return fails(cause, "it is neither HOST:PORT nor a path with a slash");
    }
    if (!whole_number(colon + 1, 0, 65535, &port)) {
        return fails(cause, "the port is no number from 0 to 65535");
    }
    length = (size_t)(colon - address);
    if (length >= 2 && address[0] == '[' && address[length - 1] == ']') {
        address++;
        length -= 2;
    } else if (memchr(address, ':', length)) {
        return fails(cause, "an address of IPv6 stands in brackets");
    }
    memcpy(host, address, length);
    host[length] = '\0';
    if (*host) {
        return listen_family(AF_UNSPEC, host, colon + 1, made, cause);
    }
    return listen_family(AF_INET6, NULL, colon + 1, made, cause)
        || listen_family(AF_INET, NULL, colon + 1, made, cause);
}

void forget_name(const listening *made)
{
    struct stat of;
    if (made->is_file && !lstat(made->name, &of) && of.st_dev == made->device
        && of.st_ino == made->inode) {
        unlink(made->name);
    }
}

void let_go(server *s, map *of)
{
    unsigned users;
    if (!of) {
        return;
    }
    pthread_mutex_lock(&s->lock);
    users = --of->users;
    pthread_mutex_unlock(&s->lock);
    if (!users) {
        unmap_files(&of->index);
        free(of);
    }
}

map *map_of_now(server *s)
{
    map *of;
    pthread_mutex_lock(&s->lock);
    if ((of = s->current)) {
        of->users++;
    }
    pthread_mutex_unlock(&s->lock);
    return of;
}

void free_place(server *s, long place)
{
    pthread_mutex_lock(&s->lock);
    s->places[place] = FREE;
    s->connections--;
    pthread_cond_broadcast(&s->changed);
    pthread_mutex_unlock(&s->lock);
}

/* Waits until a socket can be read: 0 where it is too late, -1 where the server ends first. */
static int waited(server *s, int socket, int64_t until)
{
    struct pollfd both[2] = {{socket, POLLIN, 0}, {s->ends[0], POLLIN, 0}};
    int64_t left;
    int n;
    do {
        left = (until - time_now()) / 1000000;
        n = left <= 0 ? 0 : poll(both, 2, (int)left);
    } while (n < 0 && errno == EINTR);
    return n <= 0 ? 0 : both[0].revents ? 1 : -1;
}

/* Waits until more can be sent, at most until a time; 0 where that is too late, or where others
 * wait for the memory of a reply of which nothing is taken for a second. */
static int can_send(connection *c, int64_t until)
{
    struct pollfd to = {c->socket, POLLOUT, 0};
    int64_t left;
    int n = 0;
    while (n == 0 && (left = (until - time_now()) / 1000000) > 0) {
        n = poll(&to, 1, left < 1000 ? (int)left : 1000);
        if (n == 0 && c->holds && c->of->waiting) {
            return 0;
        }
    }
    return n > 0 || (n < 0 && errno == EINTR);
}

/* Sends bytes: a megabyte at least in the time that a client may be silent. This call and those
 * that follow give 0 where the connection is to end. */
static int sent(connection *c, const char *bytes, size_t count)
{
    int64_t span = (int64_t)c->of->given.idle * SECOND, until = time_now() + span;
    size_t at = 0, renewed = 0;
    while (at < count) {
        size_t part = count - at < MEGABYTE ? count - at : MEGABYTE;
        ssize_t n = send(c->socket, bytes + at, part, MSG_NOSIGNAL | MSG_DONTWAIT);
        if (n < 0 && errno == EAGAIN ? !can_send(c, until) : n < 0 && errno != EINTR) {
            return 0;
        }
        at += n > 0 ? (size_t)n : 0;
        if (at - renewed >= MEGABYTE) {
            renewed = at;
            until = time_now() + span;
        }
        if (time_now() >= until) {
            return 0;
        }
    }
    return 1;
}

static int sent_all(connection *c)
{
    size_t count = c->used;
    c->used = 0;
    return sent(c, c->replies, count);
}

/* Counts a line that took so long. */
static void count_line(server *s, int64_t took)
{
    uint64_t time = (uint64_t)took / 1000, bucket;
    unsigned high = 0;
    while (time >> high >= 16) {
        high++;
    }
    bucket = 8 * high + (time >> high);
    atomic_fetch_add(&s->took[bucket < BUCKETS ? bucket : BUCKETS - 1], 1);
}

uint64_t bucket_end(unsigned bucket)
{
    unsigned high = bucket < 16 ? 0 : bucket / 8 - 1;
    return ((uint64_t)(bucket - 8 * high + 1) << high) - 1;
}

/* Waits until so many bytes more may be held; 0 where that takes too long. */
static int may_hold(server *s, size_t bytes)
{
    struct timespec until;
    int late = 0;
    clock_gettime(CLOCK_MONOTONIC, &until);
    until.tv_sec += (time_t)s->given.idle;
    pthread_mutex_lock(&s->lock);
    s->waiting++;
    while (!late && s->held + bytes > s->given.held) {
        late = pthread_cond_timedwait(&s->changed, &s->lock, &until);
    }
    s->waiting--;
    s->held += late ? 0 : bytes;
    pthread_mutex_unlock(&s->lock);
    return !late;
}

static void give_back(server *s, size_t bytes)
{
    pthread_mutex_lock(&s->lock);
    s->held -= bytes;
    pthread_cond_broadcast(&s->changed);
    pthread_mutex_unlock(&s->lock);
}

static uint32_t replied(connection *c, const char *line, size_t length, char *to, size_t room,
    size_t *count)
{
    int64_t begun = time_now();
    uint32_t ended =
        reply_of(&c->map->index, c->of->given.plan, line, length, to, room, count);
    if (ended == PEFIDX_DONE) {
        count_line(c->of, time_now() - begun);
    } else if (ended == PEFIDX_NO_MEMORY) {
        say("a line", "memory was refused");
    }
    return ended;
}

/* Answers a line whose reply gets room of its own, as much as it takes at most. */
static int answered_alone(connection *c, const char *line, size_t length, size_t most)
{
    size_t holds = COPIES * most, count = 0;
    uint32_t ended = PEFIDX_NO_MEMORY;
    int is_sent = 0;
    char *text;
    holds = holds < c->of->given.held ? holds : c->of->given.held;
    if (!may_hold(c->of, holds)) {
        return 0;
    }
    if ((text = malloc(most))) {
        ended = replied(c, line, length, text, most, &count);
    }
    if (ended == PEFIDX_DONE) {
        char *less = realloc(text, count);
        text = less ? less : text;
        if (count < holds) {
            give_back(c->of, holds - count);
            holds = count;
        }
        c->holds = holds;
        is_sent = sent(c, text, count);
        c->holds = 0;
    }
    free(text);
    give_back(c->of, holds);
    return ended == PEFIDX_ROOM ? answered_alone(c, line, length, count) : is_sent;
}

/* Answers a line from the map of now. Replies are sent when they are many bytes or have waited. */
static int answered(connection *c, const char *line, size_t length)
{
    static const char too_long[] = "bad room\n";
    uint32_t ended = PEFIDX_DONE;
    size_t most, count = sizeof too_long - 1;
    if (c->map != c->of->current) {
        let_go(c->of, c->map);
        c->map = map_of_now(c->of);
    }
    most = most_bytes(&c->map->index, line, length);
    if (most > ROOM - c->used && !sent_all(c)) {
        return 0;
    }
    if (most > c->of->given.reply) {
        memcpy(c->replies + c->used, too_long, count);
    } else if (most > ROOM) {
        return answered_alone(c, line, length, most);
    } else {
        ended = replied(c, line, length, c->replies + c->used, ROOM - c->used, &count);
    }
    if (ended != PEFIDX_DONE) {
        return ended == PEFIDX_ROOM && sent_all(c) && answered_alone(c, line, length, count);
    }
    c->since = c->used ? c->since : time_now();
    c->used += count;
    return (c->used < FULL && time_now() - c->since < WAIT) || sent_all(c);
}

static void hold_line(connection *c, const char *bytes, size_t count)
{
    size_t more = count < HELD - c->held ? count : HELD - c->held;
    memcpy(c->line + c->held, bytes, more);
    c->held += more;
}

static void begin_line(connection *c)
{
    c->held = 0;
    c->until = time_now() + (int64_t)c->of->given.idle * SECOND;
}

/* Answers the lines that end in the next bytes, and holds the rest. */
static int taken(connection *c, size_t count)
{
    const char *at = c->piece, *newline;
    while ((newline = memchr(at, '\n', count))) {
        size_t length = (size_t)(newline - at), held = c->held;
        if (held) {
            hold_line(c, at, length);
        }
        if (!(held ? answered(c, c->line, c->held) : answered(c, at, length))) {
            return 0;
        }
        begin_line(c);
        count -= length + 1;
        at = newline + 1;
    }
    hold_line(c, at, count);
    if (!sent_all(c)) {
        return 0;
    }
    let_go(c->of, c->map);
    c->map = NULL;
    return 1;
}

/* The next bytes; 0 at the end of them, or of those that have come where the server ends. */
static ssize_t received(connection *c)
{
    int ready = waited(c->of, c->socket, c->until);
    ssize_t n = ready ? recv(c->socket, c->piece, PIECE, MSG_DONTWAIT) : -1;
    if (n < 0 && ready < 0 && (errno == EAGAIN || errno == EWOULDBLOCK)) {
        c->is_stopped = 1;
        n = 0;
    }
    return n;
}

/* Closes a connection: not at once where the server ends it, since what a client still sends would
 * take away replies that it has not read. */
static void ended(connection *c)
{
    struct pollfd from = {c->socket, POLLIN, 0};
    if (c->is_stopped) {
        shutdown(c->socket, SHUT_WR);
        while (poll(&from, 1, LINGER) > 0 && recv(c->socket, c->piece, PIECE, 0) > 0) {
        }
    }
    close(c->socket);
    let_go(c->of, c->map);
    free_place(c->of, c->place);
    free(c);
}

static void *answer_lines(void *given)
{
    connection *c = given;
    ssize_t n;
    begin_line(c);
    while ((n = received(c)) > 0 && taken(c, (size_t)n)) {
    }
    if (n == 0 && c->held && !c->is_stopped && answered(c, c->line, c->held)) {
        sent_all(c);
    }
    ended(c);
    return NULL;
}

int begin_connection(server *s, int socket, long place)
{
    const int at_once = 1;
    connection *c = calloc(1, sizeof *c);
    if (!c) {
        return 0;
    }
    setsockopt(socket, IPPROTO_TCP, TCP_NODELAY, &at_once, sizeof at_once); /* of TCP alone */
    c->of = s;
    c->place = place;
    c->socket = socket;
    if (!begin_thread(answer_lines, c)) {
        free(c);
        return 0;
    }
    return 1;
}
