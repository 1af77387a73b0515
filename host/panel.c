/*
 * panel: a panel's handshake with an LLQ server (RFC 8764): setup, the setup again as where its challenge was lost, response,
 * refresh, and the end of its entry. One line a step. What is not a reply to what was sent is ignored, as if it had not come.
 */
#include <arpa/inet.h>
#include <errno.h>
#include <getopt.h>
#include <inttypes.h>
#include <netdb.h>
#include <poll.h>
#include <stdarg.h>
#include <stdio.h>
#include <stdlib.h>
#include <string.h>
#include <sys/random.h>
#include <sys/socket.h>
#include <time.h>
#include <unistd.h>

#include "../include/llq.h"

enum { SETUP = 1, REFRESH = 2, PTR = 12, IN = 1, OPT = 41 };
enum { AGAIN = 2, LEFT_LEAST = 20 }; /* seconds until the setup is sent again; that must be left for it, lest its entry ends meanwhile */
enum { HEADER = 12, OPT_FIXED = 11, LLQ_DATA = 18, MESSAGE_MOST = 1472, NAME_MOST = 255 };

struct llq {
    uint16_t opcode, error;
    uint64_t number;
    uint32_t lease;
};

static const char *address, *port;
static uint8_t question[NAME_MOST + 4];
static size_t question_length;

static void die(const char *format, ...) __attribute__((format(printf, 1, 2), noreturn));

static void die(const char *format, ...)
{
    va_list args;
    va_start(args, format);
    fflush(stdout);
    fputs("panel: ", stderr);
    vfprintf(stderr, format, args);
    fputc('\n', stderr);
    va_end(args);
    exit(1);
}

static uint8_t *put(uint8_t *at, uint64_t value, int width)
{
    for (int i = 0; i < width; i++)
        at[i] = (uint8_t)(value >> 8 * (width - 1 - i));
    return at + width;
}

/* Numbers one after the other, each of its width in bytes. */
struct field {
    uint64_t value;
    int width;
};

static uint8_t *put_fields(uint8_t *at, const struct field *fields, size_t count)
{
    for (size_t i = 0; i < count; i++)
        at = put(at, fields[i].value, fields[i].width);
    return at;
}

static uint64_t get(const uint8_t *at, int width)
{
    uint64_t value = 0;
    for (int i = 0; i < width; i++)
        value = value << 8 | at[i];
    return value;
}

/* ---- messages */

/* The question: a name of dotted text as labels, type PTR, class IN. RFC 1035: labels of 1 to 63 bytes, 255 in all. */
static void set_question(const char *name)
{
    uint8_t *at = question;
    const char *rest = strcmp(name, ".") == 0 ? "" : name;
    if (!*name)
        die("'' is not a name");
    while (*rest) {
        size_t label = strcspn(rest, ".");
        if (label == 0)
            die("'%s' is not a name: a label is empty", name);
        if (label > 63)
            die("'%s' is not a name: a label has %zu bytes, 63 are the most", name, label);
        if ((size_t)(at - question) + 1 + label + 1 > NAME_MOST)
            die("'%s' is not a name: it is longer than %d bytes", name, NAME_MOST);
        *at++ = (uint8_t)label;
        memcpy(at, rest, label);
        at += label;
        rest += label + (rest[label] == '.');
    }
    at = put_fields(at, (struct field[]){{0, 1}, {PTR, 2}, {IN, 2}}, 3);
    question_length = (size_t)(at - question);
}

/* One question with one LLQ option. */
static size_t write_query(uint8_t *message, uint16_t id, struct llq llq)
{
    const struct field header[] = {{id, 2}, {0x0100, 2}, {0x0001000000000001, 8}};
    const struct field opt[] = {{0, 1}, {OPT, 2}, {MESSAGE_MOST, 2}, {0, 4}, {4 + LLQ_DATA, 2}};
    /* code, length, version, opcode, error, number, lease */
    const struct field option[] = {{1, 2}, {LLQ_DATA, 2}, {1, 2}, {llq.opcode, 2}, {0, 2}, {llq.number, 8}, {llq.lease, 4}};
    uint8_t *at = put_fields(message, header, 3);
    memcpy(at, question, question_length);
    at = put_fields(at + question_length, opt, 5);
    at = put_fields(at, option, 7);
    return (size_t)(at - message);
}

/*
 * Is it a reply to what was sent? A response to this message number with the question as it was sent, no answers, an OPT record
 * and in it one LLQ option of version 1 and this opcode. The LLQ number is the one sent; a grant has a fresh one, a refusal may
 * have 0.
 */
static int read_reply(const uint8_t *reply, size_t length, uint16_t id, struct llq sent, struct llq *back)
{
    size_t at = HEADER + question_length, found = 0;
    if (length < at + OPT_FIXED || get(reply, 2) != id || (reply[2] & 0xfa) != 0x80 || (reply[3] & 0x0f) != 0)
        return 0;
    if (get(reply + 4, 8) != 0x0001000000000001 || memcmp(reply + HEADER, question, question_length) != 0)
        return 0;
    if (reply[at] != 0 || get(reply + at + 1, 2) != OPT || reply[at + 6] != 0 || get(reply + at + 9, 2) != length - at - OPT_FIXED)
        return 0;
    for (at += OPT_FIXED; at < length;) {
        if (length - at < 4)
            return 0;
        size_t code = get(reply + at, 2), size = get(reply + at + 2, 2);
        const uint8_t *data = reply + at + 4;
        if (length - at - 4 < size)
            return 0;
        at += 4 + size;
        if (code != 1)
            continue;
        if (size != LLQ_DATA || found++ || get(data, 2) != 1 || get(data + 2, 2) != sent.opcode)
            return 0;
        *back = (struct llq){sent.opcode, (uint16_t)get(data + 4, 2), get(data + 6, 8), (uint32_t)get(data + 14, 4)};
    }
    if (!found)
        return 0;
    if (sent.opcode == REFRESH)
        return back->number == sent.number;
    if (back->error)
        return back->number == 0 || back->number == sent.number;
    return sent.number ? back->number == sent.number : back->number != 0;
}

/* ---- asking */

static long milliseconds(void)
{
    struct timespec now;
    clock_gettime(CLOCK_MONOTONIC, &now);
    return now.tv_sec * 1000 + now.tv_nsec / 1000000;
}

static uint16_t fresh_id(void)
{
    uint16_t id;
    if (getrandom(&id, sizeof id, 0) != (ssize_t)sizeof id)
        die("getrandom: %s", strerror(errno));
    return id;
}

/* Ends in words if the server refused: RFC 8764's error numbers. */
static struct llq granted(struct llq back, const char *what)
{
    static const char *const words[] = {"", "", "the answer does not change, an LLQ is not needed (static)", "format error", "no such LLQ",
                                        "the server does not speak version 1", "the server gives no reason (unknown error)"};
    if (back.error == 1)
        die("%s refused: the server is full, try again after %" PRIu32 " s", what, back.lease);
    if (back.error > 6)
        die("%s refused: error %u, which RFC 8764 does not have", what, back.error);
    if (back.error)
        die("%s refused: %s", what, words[back.error]);
    return back;
}

/*
 * Send and wait for the reply. RFC 8764, section 5.1: a setup and a response are sent again after 2 s and 4 s more, and the
 * server is down 8 s later. Section 7.1: a refresh is not sent again before 90 % of its lease has gone, so here it is sent once.
 */
static struct llq ask(int s, struct llq sent, const char *what)
{
    static const int waits[] = {AGAIN * 1000, 4000, 8000};
    uint8_t message[MESSAGE_MOST], reply[65535];
    uint16_t id = fresh_id();
    size_t length = write_query(message, id, sent);
    for (int try = sent.opcode == SETUP ? 0 : 2; try < 3; try++) {
        /* a port that nobody has is told of by the next send: the error is taken off, and it is sent */
        if (send(s, message, length, 0) < 0 && (errno != ECONNREFUSED || send(s, message, length, 0) < 0))
            die("%s port %s: %s", address, port, strerror(errno));
        for (long end = milliseconds() + waits[try], left; (left = end - milliseconds()) > 0;) {
            struct pollfd ready = {.fd = s, .events = POLLIN};
            struct llq back = {0};
            if (poll(&ready, 1, (int)left) < 1)
                continue;
            ssize_t got = recv(s, reply, sizeof reply, MSG_DONTWAIT);
            if (got >= 0 && read_reply(reply, (size_t)got, id, sent, &back))
                return granted(back, what);
        }
    }
    die("no reply to the %s from %s port %s", what, address, port);
}

/* The setup again, as if its challenge had been lost: it finds its entry, so it is told that number and what is left. */
static struct llq ask_again(int s, struct llq setup, struct llq challenge)
{
    sleep(AGAIN);
    struct llq again = ask(s, setup, "setup again");
    if (again.number != challenge.number)
        die("setup again: another number, %016" PRIx64, again.number);
    if (again.lease > challenge.lease)
        die("setup again: %" PRIu32 " s left, more than before", again.lease);
    printf("setup again after %d s: the same number, %" PRIu32 " s left\n", AGAIN, again.lease);
    return again;
}

/* ---- the socket and the options */

static struct addrinfo *resolve(const char *host, const char *service, int family)
{
    struct addrinfo hints = {.ai_family = family, .ai_socktype = SOCK_DGRAM, .ai_flags = AI_NUMERICHOST | AI_NUMERICSERV}, *found;
    int error = getaddrinfo(host, service, &hints, &found);
    if (error)
        die("%s port %s: %s", host, service, gai_strerror(error));
    return found;
}

static int open_socket(const char *local_address, const char *local_port)
{
    struct addrinfo *server = resolve(address, port, AF_UNSPEC);
    int s = socket(server->ai_family, SOCK_DGRAM | SOCK_CLOEXEC, 0);
    if (s < 0)
        die("socket: %s", strerror(errno));
    if (local_address || local_port) {
        const char *any = server->ai_family == AF_INET6 ? "::" : "0.0.0.0", *from = local_address ? local_address : any;
        struct addrinfo *local = resolve(from, local_port ? local_port : "0", server->ai_family);
        if (bind(s, local->ai_addr, local->ai_addrlen))
            die("%s port %s: %s", from, local_port ? local_port : "0", strerror(errno));
        freeaddrinfo(local);
    }
    /* connected: the kernel drops what comes from elsewhere */
    if (connect(s, server->ai_addr, server->ai_addrlen))
        die("%s port %s: %s", address, port, strerror(errno));
    freeaddrinfo(server);
    return s;
}

static uint32_t number_of(const char *text, const char *what, unsigned long most)
{
    char *end;
    unsigned long value = strtoul(text, &end, 10);
    if (*text < '0' || *text > '9' || *end || value < 1 || value > most)
        die("%s '%s' is not a number from 1 to %lu", what, text, most);
    return (uint32_t)value;
}

static void usage(FILE *out)
{
    fputs("usage: panel [--local-address A] [--local-port P] [--lease SECONDS] [--once] [--keep] ADDRESS PORT NAME\n"
          "  --local-address  send from this address\n"
          "  --local-port     send from this port; an entry belongs to it, so a panel that starts again finds its own\n"
          "  --lease          seconds to ask for (3600); the server grants 60 to 7200\n"
          "  --once           send the setup once; without this it is sent again after 2 s, as if its challenge had been lost\n"
          "  --keep           leave the entry in the server's table until its lease runs out\n"
          "  -h, --help; --version\n", out);
}

int main(int argc, char **argv)
{
    static const struct option options[] = {{"local-address", 1, 0, 'a'}, {"local-port", 1, 0, 'p'}, {"lease", 1, 0, 'l'},
                                            {"once", 0, 0, 'o'}, {"keep", 0, 0, 'k'}, {"help", 0, 0, 'h'}, {"version", 0, 0, 'V'}, {0}};
    const char *local_address = NULL, *local_port = NULL;
    uint32_t lease = 3600;
    int once = 0, keep = 0;
    for (int o; (o = getopt_long(argc, argv, "h", options, NULL)) != -1;)
        switch (o) {
        case 'a': local_address = optarg; break;
        case 'p': number_of(local_port = optarg, "--local-port", 65535); break;
        case 'l': lease = number_of(optarg, "--lease", UINT32_MAX); break;
        case 'o': once = 1; break;
        case 'k': keep = 1; break;
        case 'h': usage(stdout); return 0;
        case 'V': puts("panel " LLQ_VERSION); return 0;
        default: usage(stderr); return 1;
        }
    if (argc - optind != 3) {
        usage(stderr);
        return 1;
    }
    address = argv[optind];
    number_of(port = argv[optind + 1], "port", 65535);
    set_question(argv[optind + 2]);
    int s = open_socket(local_address, local_port);
    struct llq setup = {SETUP, 0, 0, lease}, challenge = ask(s, setup, "setup");
    printf("setup: granted number %016" PRIx64 ", lease %" PRIu32 " s\n", challenge.number, challenge.lease);
    if (!once && challenge.lease >= LEFT_LEAST)
        challenge = ask_again(s, setup, challenge);
    struct llq answer = ask(s, (struct llq){SETUP, 0, challenge.number, challenge.lease}, "response");
    printf("response: established, %" PRIu32 " s left\n", answer.lease);
    struct llq renewed = ask(s, (struct llq){REFRESH, 0, challenge.number, lease}, "refresh");
    printf("refresh: renewed, lease %" PRIu32 " s\n", renewed.lease);
    if (keep) {
        printf("kept: the entry stays for %" PRIu32 " s\n", renewed.lease);
    } else {
        ask(s, (struct llq){REFRESH, 0, challenge.number, 0}, "end");
        puts("end: the entry is gone");
    }
    return fflush(stdout) != 0;
}
