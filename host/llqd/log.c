/*
 * Lines on stderr. A reader that ends or stalls must neither end nor stall the host: a line that cannot be written at once is
 * lost, and counted. (A regular file is written as it is: a disk that hangs does stall the host.)
 */
#include <errno.h>
#include <fcntl.h>
#include <poll.h>
#include <stdarg.h>
#include <stdlib.h>
#include <string.h>
#include <sys/stat.h>
#include <unistd.h>

#include "llqd.h"

#define LINE_MOST 4096 /* a pipe that can be written to takes so much without waiting */
#define PATIENCE 50    /* ms that a report as a whole may wait for its reader */

static int out = STDERR_FILENO;
static bool socket_out;
static unsigned long lost;
static bool cut; /* the last line was not written to its end */

/* A pipe or terminal is opened again, so that not waiting is this process's own setting and not its parent's too. */
void log_open(void)
{
    struct stat is;
    if (fstat(STDERR_FILENO, &is))
        return;
    socket_out = S_ISSOCK(is.st_mode);
    if (S_ISFIFO(is.st_mode) || S_ISCHR(is.st_mode)) {
        int again = open("/proc/self/fd/2", O_WRONLY | O_NONBLOCK | O_NOCTTY | O_CLOEXEC);
        out = again >= 0 ? again : out;
    }
}

/* One line, if the reader takes it until then; at least one try. */
static bool put(const char *text, size_t length, int64_t until)
{
    do {
        int64_t left = until - milliseconds();
        struct pollfd ready = {.fd = out, .events = POLLOUT};
        if (poll(&ready, 1, left > 0 ? (int)left : 0) != 1)
            return false;
        ssize_t done = socket_out ? send(out, text, length, MSG_DONTWAIT | MSG_NOSIGNAL) : write(out, text, length);
        if (done <= 0)
            return false;
        cut = (size_t)done < length;
        text += done;
        length -= (size_t)done;
    } while (length && milliseconds() < until);
    return length == 0;
}

/* What was lost is said before the next line. */
static bool put_lost(int64_t until)
{
    char line[64];
    if (!lost)
        return true;
    int size = snprintf(line, sizeof line, "%sllqd: %lu line%s lost\n", cut ? "\n" : "", lost, lost == 1 ? " was" : "s were");
    if (!put(line, (size_t)size, until))
        return false;
    lost = 0;
    return true;
}

static void put_lines(const char *text, size_t length, int patience)
{
    int64_t until = milliseconds() + patience;
    while (length) {
        const char *end = memchr(text, '\n', length);
        size_t size = end ? (size_t)(end + 1 - text) : length;
        if (size > LINE_MOST || !put_lost(until) || !put(text, size, until))
            lost++;
        text += size;
        length -= size;
    }
}

void log_text(const char *text, size_t length)
{
    put_lines(text, length, 0);
}

void log_report(const char *text, size_t length)
{
    put_lines(text, length, PATIENCE);
}

static void line(const char *format, va_list args)
{
    char text[2048] = "llqd: ";
    size_t at = strlen(text), room = sizeof text - at - 1;
    int size = vsnprintf(text + at, room, format, args);
    at += size < 0 ? 0 : (size_t)size < room ? (size_t)size : room - 1;
    text[at++] = '\n';
    log_text(text, at);
}

void say(const char *format, ...)
{
    va_list args;
    va_start(args, format);
    line(format, args);
    va_end(args);
}

void die(const char *format, ...)
{
    va_list args;
    va_start(args, format);
    line(format, args);
    va_end(args);
    exit(1);
}

bool refuse(char *reason, const char *format, ...)
{
    va_list args;
    va_start(args, format);
    vsnprintf(reason, REASON_SIZE, format, args);
    va_end(args);
    return false;
}

const char *time_text(time_t seconds, char *text)
{
    struct tm parts;
    if (!gmtime_r(&seconds, &parts) || strftime(text, TIME_SIZE, "%Y-%m-%d %H:%M:%S UTC", &parts) == 0)
        snprintf(text, TIME_SIZE, "%lld", (long long)seconds);
    return text;
}
