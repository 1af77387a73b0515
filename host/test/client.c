/* client: the tests' load client. This file: messages, sockets, and what is asked for. */
#include <errno.h>
#include <netdb.h>
#include <poll.h>
#include <stdarg.h>
#include <stdio.h>
#include <stdlib.h>
#include <string.h>
#include <sys/socket.h>
#include <time.h>
#include <unistd.h>

#include "client.h"

const char *const state_words[] = {"absent", "pending", "established"};
uint64_t seed = 1;
static const char *server, *server_port;

void die(const char *format, ...)
{
    va_list args;
    va_start(args, format);
    fputs("client: ", stderr);
    vfprintf(stderr, format, args);
    fputc('\n', stderr);
    va_end(args);
    exit(1);
}

double now(void)
{
    struct timespec t;
    clock_gettime(CLOCK_MONOTONIC, &t);
    return (double)t.tv_sec + (double)t.tv_nsec / 1e9;
}

uint32_t below(uint32_t bound)
{
    seed = seed * 6364136223846793005u + 1442695040888963407u;
    return (uint32_t)(seed >> 33) % bound;
}

/* ---- messages */

uint8_t *put(uint8_t *at, uint64_t value, int width)
{
    for (int i = 0; i < width; i++)
        at[i] = (uint8_t)(value >> 8 * (width - 1 - i));
    return at + width;
}

uint64_t get(const uint8_t *at, int width)
{
    uint64_t value = 0;
    for (int i = 0; i < width; i++)
        value = value << 8 | at[i];
    return value;
}

size_t write_query(uint8_t *message, uint16_t id, const char *name, const struct llq *llqs, unsigned count)
{
    /* RD; the counts are 0 but for questions and one additional record */
    uint8_t *at = put(put(put(put(message, id, 2), 0x0100, 2), count, 2), 1, 6);
    for (unsigned i = 0; i < count; i++) {
        for (const char *label = name; *label;) {
            size_t size = strcspn(label, ".");
            at = put(at, size, 1);
            memcpy(at, label, size);
            at += size;
            label += size + (label[size] == '.');
        }
        at = put(put(put(at, 0, 1), 12 + i, 2), 1, 2);
    }
    at = put(put(put(put(put(at, 0, 1), 41, 2), 1472, 2), 0, 4), 22 * count, 2);
    for (unsigned i = 0; i < count; i++) {
        at = put(put(put(at, 1, 2), 18, 2), 1, 2); /* code, length, version */
        at = put(put(put(put(at, llqs[i].opcode, 2), llqs[i].error, 2), llqs[i].number, 8), llqs[i].lease, 4);
    }
    return (size_t)(at - message);
}

struct llq last_option(const uint8_t *reply, size_t length)
{
    const uint8_t *at = reply + length - 16;
    return (struct llq){(uint16_t)get(at, 2), (uint16_t)get(at + 2, 2), get(at + 4, 8), (uint32_t)get(at + 12, 4)};
}

/* ---- sockets */

unsigned local_port(unsigned number) { return (unsigned)atoi(server_port) + 1 + number; }

int socket_from(const char *from, unsigned number)
{
    struct addrinfo hints = {.ai_socktype = SOCK_DGRAM, .ai_flags = AI_NUMERICHOST | AI_NUMERICSERV}, *here, *there;
    int size = 1 << 22;
    char port[12];
    snprintf(port, sizeof port, "%u", local_port(number));
    if (getaddrinfo(from, port, &hints, &here) || getaddrinfo(server, server_port, &hints, &there))
        die("%s or %s is not an address", from, server);
    int s = socket(here->ai_family, SOCK_DGRAM, 0);
    if (s < 0 || bind(s, here->ai_addr, here->ai_addrlen) || connect(s, there->ai_addr, there->ai_addrlen))
        die("%s port %s: %s", from, port, strerror(errno));
    /* room for every reply that is under way, so that none is lost here */
    if (setsockopt(s, SOL_SOCKET, SO_RCVBUFFORCE, &size, sizeof size))
        setsockopt(s, SOL_SOCKET, SO_RCVBUF, &size, sizeof size);
    freeaddrinfo(here);
    freeaddrinfo(there);
    return s;
}

int ask(int s, const char *name, const struct llq *sent, int count, double wait, struct llq *back)
{
    static uint16_t id;
    uint8_t message[1472], reply[1472];
    size_t length = 0;
    uint16_t first = (uint16_t)(id + 1);
    for (int i = 0; i < count; i++) {
        length = write_query(message, ++id, name, sent + i, 1);
        send(s, message, length, 0);
    }
    for (double end = now() + wait, left; (left = end - now()) > 0;) {
        struct pollfd ready = {.fd = s, .events = POLLIN};
        if (poll(&ready, 1, (int)(left * 1000) + 1) <= 0)
            continue;
        ssize_t got = recv(s, reply, sizeof reply, MSG_DONTWAIT);
        if (got < 0 && errno == ECONNREFUSED) { /* no server there: not at once again */
            usleep(10000);
            return 0;
        }
        if (got != (ssize_t)length || !(reply[2] & 0x80))
            continue;
        uint16_t which = (uint16_t)(get(reply, 2) - first); /* a reply to an earlier one is far from it */
        if (which < count) {
            *back = last_option(reply, length);
            return which + 1;
        }
    }
    return 0;
}

uint64_t establish(int s, const char *name, double wait)
{
    struct llq back, done;
    double end = now() + wait;
    while (!ask(s, name, &(struct llq){SETUP, 0, 0, 3600}, 1, 1, &back))
        if (now() > end)
            die("no reply to a setup");
    if (back.error == FULL)
        return 0;
    while (!ask(s, name, &(struct llq){SETUP, 0, back.number, back.lease}, 1, 1, &done))
        if (now() > end)
            die("no reply to a response");
    if (back.error || done.error)
        die("a setup was answered with error %u, its response with %u", back.error, done.error);
    return back.number;
}

int main(int argc, char **argv)
{
    const char *mode = argc > 3 ? argv[1] : "";
    server = argc > 2 ? argv[2] : "";
    server_port = argc > 3 ? argv[3] : "";
    if (strcmp(mode, "load") == 0 && argc > 6)
        return load((unsigned)atoi(argv[4]), atof(argv[5]), argv + 6, (unsigned)argc - 6);
    if (strcmp(mode, "probe") == 0 && argc == 8)
        return probe(argv[4], (unsigned)atoi(argv[5]), (unsigned)atoi(argv[6]), (unsigned)atoi(argv[7]));
    if (strcmp(mode, "keep") == 0 && argc > 7) {
        seed = strtoull(argv[6], NULL, 10);
        return keep(argv[4], atof(argv[5]), argv + 7, (unsigned)argc - 7);
    }
    if (strcmp(mode, "check") == 0 && argc == 4)
        return check(argv[2], argv[3]);
    if (strcmp(mode, "damage") == 0 && argc == 7) {
        seed = strtoull(argv[6], NULL, 10);
        return damage((unsigned)atoi(argv[5]), argv[4]);
    }
    fputs("usage: client load SERVER PORT UNDERWAY SECONDS FROM-ADDRESS..\n"
          "       client probe SERVER PORT FROM-ADDRESS COUNT PAUSE-MS LIMIT-MS\n"
          "       client keep SERVER PORT LOGFILE SECONDS SEED FROM-ADDRESS..\n"
          "       client check TABLE LOGFILE\n"
          "       client damage SERVER PORT FROM-ADDRESS COUNT SEED\n", stderr);
    return 1;
}
