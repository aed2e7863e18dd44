/* Loads a server on this machine: load PORT CONNECTIONS SECONDS < LINES. Each connection sends a line, waits for its reply, and sends the next,
 * until the seconds are over. It prints lines a second, and the 50th, 99th and 99.9th percentile of what a reply took, in microseconds. */
#define _POSIX_C_SOURCE 200809L
#include <arpa/inet.h>
#include <netinet/tcp.h>
#include <pthread.h>
#include <stdio.h>
#include <stdlib.h>
#include <string.h>
#include <sys/socket.h>
#include <time.h>
#include <unistd.h>

enum { MOST_LINES = 100000, MOST_CONNECTIONS = 64, MOST_TOOK = 1 << 20 };

static char *lines[MOST_LINES];
static size_t made;
static double until;
static struct sockaddr_in server;
static float *took[MOST_CONNECTIONS];
static size_t count[MOST_CONNECTIONS];

static double now(void)
{
    struct timespec at;
    clock_gettime(CLOCK_MONOTONIC, &at);
    return (double)at.tv_sec * 1e6 + (double)at.tv_nsec / 1e3;
}

static void *asking(void *given)
{
    static _Thread_local char reply[1 << 16];
    size_t of = (size_t)given, next = of * made / MOST_CONNECTIONS;
    int to = socket(AF_INET, SOCK_STREAM, 0), one = 1;
    setsockopt(to, IPPROTO_TCP, TCP_NODELAY, &one, sizeof one);
    if (connect(to, (struct sockaddr *)&server, sizeof server)) {
        return given;
    }
    while (now() < until && count[of] < MOST_TOOK) {
        const char *line = lines[next++ % made];
        double begun = now();
        ssize_t n;
        if (send(to, line, strlen(line), MSG_NOSIGNAL) < 0) {
            break;
        }
        while ((n = recv(to, reply, sizeof reply, 0)) > 0 && reply[n - 1] != '\n') {
        }
        if (n <= 0) {
            break;
        }
        took[of][count[of]++] = (float)(now() - begun);
    }
    close(to);
    return NULL;
}

static int by_size(const void *one, const void *other)
{
    float a = *(const float *)one, b = *(const float *)other;
    return (a > b) - (a < b);
}

int main(int argc, char **argv)
{
    static char text[1 << 17];
    pthread_t threads[MOST_CONNECTIONS];
    size_t connections = argc == 4 ? strtoul(argv[2], NULL, 10) : 0, all = 0, i;
    double begun = now();
    float *sorted;
    if (!connections || connections > MOST_CONNECTIONS) {
        return 2;
    }
    while (made < MOST_LINES && fgets(text, sizeof text, stdin)) {
        lines[made++] = strdup(text);
    }
    server.sin_family = AF_INET;
    server.sin_port = htons((unsigned short)strtoul(argv[1], NULL, 10));
    server.sin_addr.s_addr = htonl(INADDR_LOOPBACK);
    begun = now();
    until = begun + 1e6 * strtod(argv[3], NULL);
    for (i = 0; i < connections; i++) {
        took[i] = malloc(MOST_TOOK * sizeof **took);
        if (!took[i] || pthread_create(&threads[i], NULL, asking, (void *)i)) {
            return 1;
        }
    }
    for (i = 0; i < connections; i++) {
        pthread_join(threads[i], NULL);
        all += count[i];
    }
    begun = now() - begun;
    sorted = malloc((all + 1) * sizeof *sorted);
    if (!sorted || !all) {
        return 1;
    }
    for (all = 0, i = 0; i < connections; i++) {
        memcpy(sorted + all, took[i], count[i] * sizeof *sorted);
        all += count[i];
    }
    qsort(sorted, all, sizeof *sorted, by_size);
    printf("%zu connections: %.0f lines a second; %.0f, %.0f, %.0f microseconds\n", connections, 1e6 * (double)all / begun, sorted[all / 2],
        sorted[all * 99 / 100], sorted[all * 999 / 1000]);
    return 0;
}
