/* Calls of the library as a test of the server wants them: linked by -Wl,--wrap=NAME for each
 * __wrap_NAME. CHECK and REPLY are milliseconds by which each check and reply is later; CALLS is a
 * file that gets a byte for each reply; DIFFERS is a plan whose replies are others. */
#define _POSIX_C_SOURCE 200809L
#include <fcntl.h>
#include <stdlib.h>
#include <time.h>
#include <unistd.h>

#include "../c/pefidx.h"

uint32_t __real_pefidx_check(const uint64_t *words, size_t count, pefidx_fault *fault);
uint32_t __wrap_pefidx_check(const uint64_t *words, size_t count, pefidx_fault *fault);
uint32_t __real_pefidx_reply(const uint64_t *words, size_t count, const uint64_t *kept,
    size_t kept_count, const uint8_t *maxima, size_t maxima_count, uint32_t plan,
    const char *line, size_t length, char *text, size_t room, size_t *written);
uint32_t __wrap_pefidx_reply(const uint64_t *words, size_t count, const uint64_t *kept,
    size_t kept_count, const uint8_t *maxima, size_t maxima_count, uint32_t plan,
    const char *line, size_t length, char *text, size_t room, size_t *written);

static void later(const char *name)
{
    const char *text = getenv(name);
    double milliseconds = text ? strtod(text, NULL) : 0;
    struct timespec span = {(time_t)(milliseconds / 1e3), (long)(milliseconds * 1e6) % 1000000000};
    nanosleep(&span, NULL);
}

uint32_t __real_pefidx_reply_segments(const uint64_t *words, size_t count,
    const pefidx_segment *segments, size_t segments_count, const uint64_t *kept,
    size_t kept_count, const uint8_t *maxima, size_t maxima_count, uint32_t plan,
    const char *line, size_t length, char *text, size_t room, size_t *written);
uint32_t __wrap_pefidx_reply_segments(const uint64_t *words, size_t count,
    const pefidx_segment *segments, size_t segments_count, const uint64_t *kept,
    size_t kept_count, const uint8_t *maxima, size_t maxima_count, uint32_t plan,
    const char *line, size_t length, char *text, size_t room, size_t *written);

uint32_t __wrap_pefidx_check(const uint64_t *words, size_t count, pefidx_fault *fault)
{
    later("CHECK");
    return __real_pefidx_check(words, count, fault);
}

static void count_call(void)
{
    const char *calls = getenv("CALLS");
    if (calls) {
        int file = open(calls, O_WRONLY | O_CREAT | O_APPEND, 0666);
        if (file < 0 || write(file, ".", 1) != 1) {
            abort();
        }
        close(file);
    }
}

uint32_t __wrap_pefidx_reply_segments(const uint64_t *words, size_t count,
    const pefidx_segment *segments, size_t segments_count, const uint64_t *kept,
    size_t kept_count, const uint8_t *maxima, size_t maxima_count, uint32_t plan,
    const char *line, size_t length, char *text, size_t room, size_t *written)
{
    later("REPLY");
    count_call();
    return __real_pefidx_reply_segments(words, count, segments, segments_count, kept, kept_count,
        maxima, maxima_count, plan, line, length, text, room, written);
}

uint32_t __wrap_pefidx_reply(const uint64_t *words, size_t count, const uint64_t *kept,
    size_t kept_count, const uint8_t *maxima, size_t maxima_count, uint32_t plan,
    const char *line, size_t length, char *text, size_t room, size_t *written)
{
    const char *differs = getenv("DIFFERS");
    uint32_t ended;
    later("REPLY");
    count_call();
    ended = __real_pefidx_reply(words, count, kept, kept_count, maxima, maxima_count, plan, line,
        length, text, room, written);
    if (differs && ended == PEFIDX_DONE && plan == strtoul(differs, NULL, 10)) {
        text[0] ^= 1;
    }
    return ended;
}
