/* SPDX-License-Identifier: Apache-2.0 */
/* pefidx-serve: answers query lines over a socket (pefidx-serve.1).
 *
 * The first thread takes signals. One opens the files, at the start and at each SIGHUP, one takes
 * connections, one tells the status, and each connection has its own; all share the map of now, and
 * a map goes with its last user. A pipe whose end is closed tells them that the server ends.
 *
 * This program is not proved. What it calls is: each reply is that of a scan of the lists. */
#define _DEFAULT_SOURCE
#include <errno.h>
#include <malloc.h>
#include <netinet/in.h>
#include <signal.h>
#include <stddef.h>
#include <stdio.h>
#include <stdlib.h>
#include <string.h>
#include <sys/un.h>
#include <time.h>
#include <unistd.h>

#include "connections.h"

/* Tells systemd a state. */
static void notify(const char *state)
{
    const char *name = getenv("NOTIFY_SOCKET");
    struct sockaddr_un to = {.sun_family = AF_UNIX};
    size_t length = name ? strlen(name) : 0;
    int at;
    if (!length || length >= sizeof to.sun_path || (at = socket(AF_UNIX, SOCK_DGRAM, 0)) < 0) {
        return;
    }
    memcpy(to.sun_path, name, length);
    if (name[0] == '@') {
        to.sun_path[0] = '\0';
    }
    length += offsetof(struct sockaddr_un, sun_path);
    sendto(at, state, strlen(state), MSG_NOSIGNAL, (struct sockaddr *)&to, (socklen_t)length);
    close(at);
}

/* Maps the files, which all lines are answered from then on; 0 where they are refused. */
static int opened(server *s)
{
    map *made = malloc(sizeof *made), *old;
    refusal why = {s->given.name, "memory was refused"};
    if (!made || !map_files(s->given.paths, s->given.files, &made->index, &why)) {
        free(made);
        pthread_mutex_lock(&s->lock);
        s->refusal = why;
        s->refused = time(NULL);
        pthread_mutex_unlock(&s->lock);
        say(why.path, why.cause);
        return 0;
    }
    if (s->given.plan == PEFIDX_INTERVALS) {
        keep_maxima(&made->index);
    }
    made->users = 1;
    pthread_mutex_lock(&s->lock);
    old = s->current;
    s->current = made;
    s->reloads += old != NULL;
    pthread_mutex_unlock(&s->lock);
    let_go(s, old);
    return 1;
}

/* A number for the machine at the other end: an address of IPv4, 64 bits of one of IPv6, or 0 for
 * a Unix socket. */
static uint64_t machine_of(const struct sockaddr_storage *from)
{
    const struct sockaddr_in *four = (const struct sockaddr_in *)from;
    const struct sockaddr_in6 *six = (const struct sockaddr_in6 *)from;
    uint64_t number = 0;
    uint32_t low;
    if (from->ss_family == AF_INET) {
        return four->sin_addr.s_addr;
    }
    if (from->ss_family == AF_INET6 && IN6_IS_ADDR_V4MAPPED(&six->sin6_addr)) {
        memcpy(&low, six->sin6_addr.s6_addr + 12, sizeof low);
        return low;
    }
    if (from->ss_family == AF_INET6) {
        memcpy(&number, six->sin6_addr.s6_addr, sizeof number);
        number = number ? number : 1; /* ::1 */
    }
    return number;
}

/* Takes a free place for a machine that has not all that one may have: which it is, or -1. Machine
 * 0 may have all. */
static long place_for(server *s, uint64_t machine)
{
    unsigned long at, of_machine = 0;
    long place = -1;
    pthread_mutex_lock(&s->lock);
    for (at = 0; at < s->given.connections; at++) {
        of_machine += machine && s->places[at] == machine;
        place = s->places[at] == FREE ? (long)at : place;
    }
    if (of_machine >= s->given.of_machine) {
        place = -1;
    }
    if (place >= 0) {
        s->places[place] = machine;
        s->connections++;
    }
    pthread_mutex_unlock(&s->lock);
    return place;
}

static void wait_for_place(server *s)
{
    pthread_mutex_lock(&s->lock);
    while (s->connections >= s->given.connections) {
        pthread_cond_wait(&s->changed, &s->lock);
    }
    pthread_mutex_unlock(&s->lock);
}

static void *take_connections(void *given)
{
    server *s = given;
    while (!s->ending) {
        struct sockaddr_storage from;
        socklen_t size = sizeof from;
        long place;
        int socket;
        wait_for_place(s);
        socket = accept(s->lines.socket, (struct sockaddr *)&from, &size);
        if (socket < 0 && !s->ending) {
            say("no connection was taken", strerror(errno));
            sleep(1);
        }
        if (socket < 0) {
            continue;
        }
        place = place_for(s, machine_of(&from));
        if (place < 0) {
            close(socket);
        } else if (!begin_connection(s, socket, place)) {
            say("no connection was taken", "memory or a thread was refused");
            close(socket);
            free_place(s, place);
        }
    }
    return NULL;
}

/* The time in which so many of a thousand lines were answered. */
static uint64_t time_of(const uint64_t *lines, uint64_t all, unsigned of_thousand)
{
    uint64_t seen = 0;
    unsigned at;
    for (at = 0; at < BUCKETS && all; at++) {
        seen += lines[at];
        if (seen * 1000 >= all * of_thousand) {
            return bucket_end(at);
        }
    }
    return 0;
}

static void put_time(FILE *to, const char *name, time_t time)
{
    char text[32];
    struct tm at;
    gmtime_r(&time, &at);
    strftime(text, sizeof text, "%Y-%m-%dT%H:%M:%SZ", &at);
    put_text(to, name, text);
}

/* Writes the times of lines: of the last minute, and what went before it by less than another. */
static void put_times(server *s, FILE *to)
{
    uint64_t lines[BUCKETS], all = 0, late = 0;
    unsigned at;
    for (at = 0; at < BUCKETS; at++) {
        uint64_t took = s->took[at];
        lines[at] = took - s->before[1][at];
        late += lines[at];
        all += took;
    }
    fprintf(to, ",\"lines\":%llu,\"late_lines\":%llu", (unsigned long long)all,
        (unsigned long long)late);
    fprintf(to, ",\"p50_us\":%llu,\"p99_us\":%llu,\"p999_us\":%llu",
        (unsigned long long)time_of(lines, late, 500),
        (unsigned long long)time_of(lines, late, 990),
        (unsigned long long)time_of(lines, late, 999));
}

/* Writes the status as a line of JSON. */
static void put_status(server *s, FILE *to)
{
    const map *of;
    pthread_mutex_lock(&s->lock);
    of = s->current;
    fprintf(to, "{\"state\":\"%s\"", s->ending ? "ending" : of ? "serving" : "checking");
    put_text(to, "index", s->given.paths[0]);
    fprintf(to, ",\"files\":%zu", s->given.files);
    if (of) {
        fprintf(to, ",\"bytes\":%llu,\"documents\":%u,\"terms\":%u",
            (unsigned long long)bytes_of_files(&of->index), (unsigned)of->index.documents,
            (unsigned)of->index.terms);
        put_time(to, "written", of->index.written);
    }
    fprintf(to, ",\"connections\":%lu,\"reloads\":%lu", s->connections, s->reloads);
    if (s->refused) {
        put_time(to, "refused", s->refused);
        put_text(to, "refused_file", s->refusal.path);
        put_text(to, "refusal", s->refusal.cause);
    }
    put_times(s, to);
    pthread_mutex_unlock(&s->lock);
    fputs("}\n", to);
}

/* Gives whoever connects the status. A line of it fits into what a new connection sends at once. */
static void *tell_status(void *given)
{
    server *s = given;
    char asked[4096];
    for (;;) {
        int to = accept(s->status.socket, NULL, NULL);
        char *text = NULL;
        size_t size = 0;
        FILE *made = to >= 0 ? open_memstream(&text, &size) : NULL;
        if (!made) {
            say("no status was told", strerror(errno));
            sleep(1);
        } else {
            put_status(s, made);
            fclose(made);
            send(to, text, size, MSG_NOSIGNAL | MSG_DONTWAIT);
            recv(to, asked, sizeof asked, MSG_DONTWAIT);
        }
        free(text);
        if (to >= 0) {
            close(to);
        }
    }
    return NULL;
}

/* Ends at once. */
static void end(server *s, int status)
{
    pthread_mutex_lock(&s->lock);
    forget_name(&s->lines);
    forget_name(&s->status);
    _exit(status);
}

/* Listens at an address, for connections that this thread takes; ends where it cannot. */
static void listen_with(server *s, const char *address, listening *made, void *(*takes)(void *))
{
    char cause[CAUSE] = "a thread was refused";
    int listens;
    pthread_mutex_lock(&s->lock);
    listens = listen_at(address, made, cause);
    pthread_mutex_unlock(&s->lock);
    if (!listens || !begin_thread(takes, s)) {
        say(address, cause);
        end(s, 1);
    }
}

/* Opens the files, serves them, and opens them anew whenever that is wanted. */
static void *open_files(void *given)
{
    server *s = given;
    char state[64];
    if (!opened(s)) {
        end(s, 1);
    }
    listen_with(s, s->given.address, &s->lines, take_connections);
    fprintf(stderr, "pefidx-serve: %s: is served at %s\n", s->given.name, s->lines.name);
    for (;;) {
        notify("READY=1");
        pthread_mutex_lock(&s->lock);
        while (!s->wanted) {
            pthread_cond_wait(&s->changed, &s->lock);
        }
        s->wanted = 0;
        pthread_mutex_unlock(&s->lock);
        snprintf(state, sizeof state, "RELOADING=1\nMONOTONIC_USEC=%lld",
            (long long)time_now() / 1000);
        notify(state);
        if (opened(s)) {
            say(s->given.name, "is served anew");
        }
    }
    return NULL;
}

static void want_file(server *s)
{
    pthread_mutex_lock(&s->lock);
    s->wanted = 1;
    pthread_cond_broadcast(&s->changed);
    pthread_mutex_unlock(&s->lock);
}

/* Keeps what was counted until now for a minute and for two. */
static void keep_counts(server *s)
{
    unsigned at;
    pthread_mutex_lock(&s->lock);
    for (at = 0; at < BUCKETS; at++) {
        s->before[1][at] = s->before[0][at];
        s->before[0][at] = s->took[at];
    }
    pthread_mutex_unlock(&s->lock);
}

/* Waits for a signal, at most until a time; 0 then. */
static int signal_until(const sigset_t *signals, int64_t until)
{
    int64_t left = until - time_now();
    struct timespec span = {(time_t)(left / SECOND), (long)(left % SECOND)};
    int signal = left > 0 ? sigtimedwait(signals, NULL, &span) : 0;
    return signal > 0 ? signal : 0;
}

/* Lets connections end with the replies to what has come, as long as that may take, or until
 * another signal to end comes. */
static void drain(server *s, const sigset_t *signals)
{
    int64_t until = time_now() + (int64_t)s->given.drain * SECOND;
    int signal = 0;
    unsigned long left = 1;
    notify("STOPPING=1");
    s->ending = 1;
    pthread_mutex_lock(&s->lock);
    shutdown(s->lines.socket, SHUT_RDWR);
    pthread_mutex_unlock(&s->lock);
    close(s->ends[1]);
    while (left && time_now() < until && (!signal || signal == SIGHUP)) {
        signal = signal_until(signals, time_now() + SECOND / 100);
        pthread_mutex_lock(&s->lock);
        left = s->connections;
        pthread_mutex_unlock(&s->lock);
    }
}

/* Does what signals ask for, until one ends the server. */
static void follow_signals(server *s, const sigset_t *signals)
{
    int64_t minute = time_now() + 60 * SECOND;
    int signal = 0;
    while (signal != SIGTERM && signal != SIGINT) {
        signal = signal_until(signals, minute);
        if (signal == SIGHUP) {
            want_file(s);
        } else if (!signal && time_now() >= minute) {
            keep_counts(s);
            minute += 60 * SECOND;
        }
    }
    if (s->current) {
        drain(s, signals);
    }
}

static const char usage[] =
    "usage: pefidx-serve [-c CONNECTIONS] [-a CONNECTIONS] [-i SECONDS] [-d SECONDS]\n"
    "                    [-r MEGABYTES] [-m MEGABYTES] [-p PLAN] [-s ADDRESS] INDEX.. ADDRESS\n";

/* Takes one option; 0 with its cause where it is none. */
static int taken_option(int letter, const char *text, options *given)
{
    const struct {
        int letter;
        unsigned long least, most, *number;
    } numbers[] = {
        {'c', 1, 65536, &given->connections},
        {'a', 1, 65536, &given->of_machine},
        {'i', 1, 1000000, &given->idle},
        {'d', 0, 1000000, &given->drain},
        {'r', 1, 1 << 20, &given->reply},
        {'m', 1, 1 << 20, &given->held},
    };
    size_t at;
    if (letter == 'p' && !plan_named(text, &given->plan)) {
        fprintf(stderr, "pefidx-serve: -p %s: no plan has this name\n", text);
        return 0;
    }
    given->status = letter == 's' ? text : given->status;
    for (at = 0; at < sizeof numbers / sizeof *numbers; at++) {
        if (letter == numbers[at].letter
            && !whole_number(text, numbers[at].least, numbers[at].most, numbers[at].number)) {
            fprintf(stderr, "pefidx-serve: -%c %s: no number from %lu to %lu\n", letter, text,
                numbers[at].least, numbers[at].most);
            return 0;
        }
    }
    return 1;
}

/* Names the files for the log: the first, and how many more there are. */
static void name_files(options *given)
{
    given->name = given->paths[0];
    if (given->files > 1) {
        size_t room = strlen(given->paths[0]) + 32;
        char *name = malloc(room);
        if (name) {
            snprintf(name, room, "%s and %zu more", given->paths[0], given->files - 1);
            given->name = name;
        }
    }
}

/* Takes the words of the command line; 0 where they are none of it. */
static int taken_words(int argc, char **argv, options *given)
{
    int letter;
    while ((letter = getopt(argc, argv, "c:a:i:d:r:m:p:s:")) != -1) {
        if (letter == '?' || !taken_option(letter, optarg, given)) {
            fputs(usage, stderr);
            return 0;
        }
    }
    if (argc - optind < 2 || argc - optind > 1 + MOST_FILES) {
        fputs(usage, stderr);
        return 0;
    }
    given->paths = argv + optind;
    given->files = (size_t)(argc - optind - 1);
    given->address = argv[argc - 1];
    name_files(given);
    given->of_machine = given->of_machine ? given->of_machine : (given->connections + 1) / 2;
    given->reply *= MEGABYTE;
    given->held *= MEGABYTE;
    return 1;
}

/* A server with nothing to serve yet; NULL where memory or a pipe was refused. */
static server *new_server(const options *given)
{
    server *s = calloc(1, sizeof *s);
    pthread_condattr_t monotonic;
    unsigned long at;
    if (!s || !(s->places = malloc(given->connections * sizeof *s->places)) || pipe(s->ends)) {
        return NULL;
    }
    for (at = 0; at < given->connections; at++) {
        s->places[at] = FREE;
    }
    s->given = *given;
    s->lines.socket = s->status.socket = -1;
    pthread_condattr_init(&monotonic);
    pthread_condattr_setclock(&monotonic, CLOCK_MONOTONIC);
    pthread_mutex_init(&s->lock, NULL);
    pthread_cond_init(&s->changed, &monotonic);
    return s;
}

int main(int argc, char **argv)
{
    options given = {.connections = 256, .idle = 60, .drain = 5, .reply = 64, .held = 256,
        .plan = best_plan};
    server *s;
    sigset_t signals;
    sigemptyset(&signals);
    sigaddset(&signals, SIGHUP);
    sigaddset(&signals, SIGTERM);
    sigaddset(&signals, SIGINT);
    pthread_sigmask(SIG_BLOCK, &signals, NULL);
    signal(SIGPIPE, SIG_IGN); /* of the log, too */
    mallopt(M_MMAP_THRESHOLD, 65536); /* so that what long replies held goes back to the system */
    if (!taken_words(argc, argv, &given)) {
        return 2;
    }
    s = new_server(&given);
    if (!s) {
        say(given.name, strerror(errno));
        return 1;
    }
    if (given.status) {
        listen_with(s, given.status, &s->status, tell_status);
    }
    if (!begin_thread(open_files, s)) {
        say(given.name, "a thread was refused");
        end(s, 1);
    }
    follow_signals(s, &signals);
    end(s, 0);
}
