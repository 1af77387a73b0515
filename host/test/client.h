/* What the load client's files share. */
#ifndef CLIENT_H
#define CLIENT_H

#include <stddef.h>
#include <stdint.h>

enum { SETUP = 1, REFRESH = 2, FULL = 1, NO_SUCH = 4 };

struct llq {
    uint16_t opcode, error;
    uint64_t number;
    uint32_t lease;
};

/* An entry's state, by the table's kinds. */
enum { FREE = 4, PENDING = 5, ESTABLISHED = 6 };

struct state {
    int kind;
    uint64_t number;
    uint32_t lease, told; /* granted, and what was last told to be left of it */
    double time;          /* when the lease began, by the wall clock */
};

/* Seconds that a lease's age may be off: the host counts whole ones, and the client may be kept waiting. */
enum { AGE_OFF_MOST = 3 };

extern const char *const state_words[]; /* from FREE on */

/* One line "client: ..." on stderr, then exit 1. */
void die(const char *format, ...) __attribute__((format(printf, 1, 2), noreturn));

/* Seconds that no change of the wall clock moves. */
double now(void);

/* A number below `bound`, the next by `seed`. */
extern uint64_t seed;
uint32_t below(uint32_t bound);

uint8_t *put(uint8_t *at, uint64_t value, int width);
uint64_t get(const uint8_t *at, int width);

/* `count` questions of one name, types PTR and up, with an LLQ option each; the bytes written. */
size_t write_query(uint8_t *message, uint16_t id, const char *name, const struct llq *llqs, unsigned count);

/* The LLQ option that ends a reply. */
struct llq last_option(const uint8_t *reply, size_t length);

/* The local port of the socket of this number: the server's port + 1 and up. */
unsigned local_port(unsigned number);

/* A socket from this address and the local port of this number, connected to the server. */
int socket_from(const char *from, unsigned number);

/* Send queries and wait for a reply to any of them: which one it answers, from 1 on, or 0 where none came in time. */
int ask(int s, const char *name, const struct llq *sent, int count, double wait, struct llq *back);

/* Setup and response, the server may still be starting: the entry's number, or 0 if the server says that it is full. */
uint64_t establish(int s, const char *name, double wait);

/* Keep `underway` datagrams under way, each of which changes the table, and print how many were answered and how fast.
   SIGTERM ends it before its time. */
int load(unsigned underway, double seconds, char **from, unsigned addresses);

/* One datagram at a time, each changing the table: how many are answered in time; 1 if one is not. */
int probe(const char *from, unsigned count, unsigned pause_ms, unsigned limit_ms);

/* From several ports of each address do random operations and log each acknowledged one. */
int keep(const char *log_path, double seconds, char **from, unsigned count);

/* Compare a table's file with the log: what was acknowledged must be there. */
int check(const char *table_path, const char *log_path);

/* Send damaged datagrams; a good query among every 20 must be answered. */
int damage(unsigned count, const char *good_from);

#endif
