/* The roster's file: lines ADDRESS SHARE LIMIT, '#' starts a comment. */
#include <arpa/inet.h>
#include <errno.h>
#include <fcntl.h>
#include <stdlib.h>
#include <string.h>
#include <sys/stat.h>
#include <unistd.h>

#include "llqd.h"

static bool parse_address(const char *text, uint8_t *address)
{
    memset(address, 0, 16);
    if (inet_pton(AF_INET, text, address + 12) == 1)
        address[10] = address[11] = 0xff;
    else if (inet_pton(AF_INET6, text, address) != 1)
        return false;
    return true;
}

int number_of(const char *text, int least, int most)
{
    char *end;
    unsigned long value = strtoul(text, &end, 10);
    bool good = *text >= '0' && *text <= '9' && !*end && value >= (unsigned long)least && value <= (unsigned long)most;
    return good ? (int)value : -1;
}

/* One line's words into a record; the error in `reason` where they are not one. */
static bool parse_line(char *const *words, const struct roster *before, uint8_t *record, char *reason)
{
    if (!words[2] || words[3])
        return refuse(reason, "a line is ADDRESS SHARE LIMIT");
    if (before->length == sizeof before->bytes)
        return refuse(reason, "more than %d addresses", LINES_MOST);
    record[0] = KIND_LISTED;
    if (!parse_address(words[0], record + ADDRESS_AT))
        return refuse(reason, "'%s' is not an IPv4 or IPv6 address", words[0]);
    int limit = number_of(words[2], 1, SLOTS_MOST);
    if (limit < 0)
        return refuse(reason, "limit '%s' is not a number from 1 to %d", words[2], SLOTS_MOST);
    int share = number_of(words[1], 0, limit);
    if (share < 0)
        return refuse(reason, "share '%s' is not a number from 0 to %d", words[1], limit);
    record[LIMIT_AT] = (uint8_t)limit;
    record[SHARE_AT] = (uint8_t)share;
    for (size_t at = 0; at < before->length; at += LINE_SIZE)
        if (memcmp(before->bytes + at + ADDRESS_AT, record + ADDRESS_AT, 16) == 0)
            return refuse(reason, "%s is listed twice", words[0]);
    return true;
}

static bool parse_file(FILE *file, struct roster *roster, int *line, char *reason)
{
    char text[256];
    roster->length = 0;
    for (*line = 1; fgets(text, sizeof text, file); ++*line) {
        uint8_t record[LINE_SIZE];
        char *rest, *words[4] = {0};
        if (strlen(text) == sizeof text - 1 && text[sizeof text - 2] != '\n')
            return refuse(reason, "the line is too long");
        text[strcspn(text, "#\r\n")] = 0;
        for (int i = 0; i < 4; i++)
            words[i] = strtok_r(i ? NULL : text, " \t", &rest);
        if (!words[0])
            continue;
        if (!parse_line(words, roster, record, reason))
            return false;
        memcpy(roster->bytes + roster->length, record, LINE_SIZE);
        roster->length += LINE_SIZE;
    }
    return true;
}

/* A regular file: a FIFO in its place would stall the host, and a device may have no end. */
static FILE *open_file(const char *path, char *reason)
{
    struct stat is;
    int file = open(path, O_RDONLY | O_NONBLOCK | O_NOCTTY | O_CLOEXEC);
    bool there = file >= 0 && fstat(file, &is) == 0;
    FILE *stream = there && S_ISREG(is.st_mode) ? fdopen(file, "r") : NULL;
    if (stream)
        return stream;
    if (there && !S_ISREG(is.st_mode))
        refuse(reason, "%s: %s", path, S_ISDIR(is.st_mode) ? strerror(EISDIR) : "not a regular file");
    else
        refuse(reason, "%s: %s", path, strerror(errno));
    if (file >= 0)
        close(file);
    return NULL;
}

bool read_roster(const char *path, struct roster *roster, char *reason)
{
    char error[REASON_SIZE];
    int line = 0;
    FILE *file = open_file(path, reason);
    if (!file)
        return false;
    bool good = parse_file(file, roster, &line, error);
    if (!good)
        refuse(reason, "%.200s:%d: %.280s", path, line, error);
    else if (ferror(file))
        good = refuse(reason, "%s: %s", path, strerror(errno));
    fclose(file);
    return good;
}
