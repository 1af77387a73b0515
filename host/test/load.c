/* The load client: many datagrams under way, and one at a time. */
#include <poll.h>
#include <signal.h>
#include <stdio.h>
#include <stdlib.h>
#include <sys/socket.h>
#include <unistd.h>

#include "client.h"

#define UNDERWAY_MOST 2048
#define ENTRIES_MOST 64
#define REPLIES_MOST 4000000
#define LOST_AFTER 2.0 /* seconds; it is sent again then, so that as many stay under way */

/* ---- many under way */

static struct entry {
    int s;
    uint64_t number;
    uint32_t lease; /* the last one sent: the next differs, so that each refresh changes the table */
} entries[ENTRIES_MOST];

static struct way {
    double sent;
    uint32_t lease;
    uint16_t turn; /* tells a late reply from the one that is waited for */
    unsigned entry;
} ways[UNDERWAY_MOST];

static void launch(unsigned i)
{
    uint8_t message[1472];
    struct way *way = &ways[i];
    struct entry *entry = &entries[way->entry];
    entry->lease = entry->lease >= 7199 ? 3600 : entry->lease + 1;
    way->lease = entry->lease;
    way->turn = (uint16_t)((way->turn + 1) % (65536 / UNDERWAY_MOST));
    way->sent = now();
    struct llq llq = {REFRESH, 0, entry->number, entry->lease};
    send(entry->s, message, write_query(message, (uint16_t)(way->turn * UNDERWAY_MOST + i), "load.example", &llq, 1), 0);
}

static volatile sig_atomic_t stopped;

static void stop(int signal)
{
    (void)signal;
    stopped = 1;
}

static int by_size(const void *a, const void *b)
{
    float x = *(const float *)a, y = *(const float *)b;
    return (x > y) - (x < y);
}

int load(unsigned underway, double seconds, char **from, unsigned addresses)
{
    float *took = malloc(REPLIES_MOST * sizeof *took);
    struct pollfd ready[ENTRIES_MOST];
    struct sigaction action = {.sa_handler = stop};
    sigaction(SIGTERM, &action, NULL);
    unsigned count = 0, replies = 0, lost = 0, late = 0;
    if (!took || underway < 1 || underway > UNDERWAY_MOST)
        die("%u under way is not from 1 to %d", underway, UNDERWAY_MOST);
    /* up to four entries an address, the limit of one that is not listed */
    for (unsigned i = 0; i < addresses * 4 && count < ENTRIES_MOST; i++) {
        int s = socket_from(from[i / 4], i % 4);
        if ((entries[count].number = establish(s, "load.example", 10))) {
            entries[count].s = s;
            entries[count].lease = 3600;
            ready[count] = (struct pollfd){.fd = s, .events = POLLIN};
            count++;
        }
    }
    if (count == 0)
        die("no entry was granted");
    double start = now(), end = start + seconds, looked = start, t;
    for (unsigned i = 0; i < underway; i++) {
        ways[i].entry = i % count;
        launch(i);
    }
    while ((t = now()) < end && !stopped) {
        poll(ready, count, 10);
        for (unsigned e = 0; e < count; e++) {
            uint8_t reply[1472];
            for (ssize_t got; ready[e].revents && (got = recv(entries[e].s, reply, sizeof reply, MSG_DONTWAIT)) > 0;) {
                unsigned id = (unsigned)get(reply, 2), i = id % UNDERWAY_MOST;
                struct llq back = last_option(reply, (size_t)got);
                if (i >= underway || ways[i].turn != id / UNDERWAY_MOST) {
                    late++;
                    continue;
                }
                if (back.error || back.lease != ways[i].lease)
                    die("a refresh was answered with error %u, lease %u for %u", back.error, back.lease, ways[i].lease);
                if (replies < REPLIES_MOST)
                    took[replies++] = (float)(now() - ways[i].sent);
                launch(i);
            }
        }
        for (unsigned i = 0; t - looked > 0.05 && i < underway; i++)
            if (t - ways[i].sent > LOST_AFTER) {
                lost++;
                launch(i);
            }
        if (t - looked > 0.05)
            looked = t;
    }
    qsort(took, replies, sizeof *took, by_size);
    printf("load: %.0f replies a second, %u replies in %.1f s, %u lost, %u late", replies / (t - start), replies, t - start, lost, late);
    if (replies)
        printf(", latency median %.1f ms, 99 %% %.1f ms, longest %.1f ms", took[replies / 2] * 1e3, took[(size_t)replies * 99 / 100] * 1e3,
               took[replies - 1] * 1e3);
    putchar('\n');
    free(took);
    return replies == 0;
}

/* ---- one at a time */

/* A setup, its response, then refreshes, each with another lease: each changes the table. */
int probe(const char *from, unsigned count, unsigned pause_ms, unsigned limit_ms)
{
    struct llq sent = {SETUP, 0, 0, 3600}, back = {0};
    unsigned answered = 0;
    double longest = 0;
    int s = socket_from(from, 0);
    for (unsigned i = 0; i < count; i++) {
        if (i)
            usleep(pause_ms * 1000);
        double start = now();
        if (!ask(s, "probe.example", &sent, 1, limit_ms / 1e3, &back))
            continue;
        answered++;
        longest = now() - start > longest ? now() - start : longest;
        if (back.error)
            die("a probe was answered with error %u", back.error);
        if (sent.opcode == SETUP && sent.number == 0)
            sent = (struct llq){SETUP, 0, back.number, back.lease};
        else
            sent = (struct llq){REFRESH, 0, sent.number, 3600 + (sent.lease + 1) % 3600};
    }
    printf("probe: %u of %u answered within %u ms, longest %.0f ms\n", answered, count, limit_ms, longest * 1e3);
    return answered < count;
}
