/* What the host's files share, one part a file. */
#ifndef LLQD_H
#define LLQD_H

#include <netinet/in.h>
#include <stdbool.h>
#include <stddef.h>
#include <stdint.h>
#include <stdio.h>
#include <sys/socket.h>
#include <time.h>

#include "../../include/llq.h"

#define LINES_MOST 16
#define SLOTS_MOST 64
#define OPTIONS_MOST 8
#define BATCH_MOST 64
#define REASON_SIZE 512

/* ---- log.c: lines on stderr, lost if the reader does not take them */

void log_open(void);
/* Whole lines. */
void log_text(const char *text, size_t length);
/* Many lines at once: the reader is given a moment to take them. */
void log_report(const char *text, size_t length);
/* One line "llqd: ...". */
void say(const char *format, ...) __attribute__((format(printf, 1, 2)));
/* The same, then exit 1. */
void die(const char *format, ...) __attribute__((format(printf, 1, 2), noreturn));
/* Writes why something cannot be; false. */
bool refuse(char *reason, const char *format, ...) __attribute__((format(printf, 2, 3)));
/* A system time as "2026-11-16 16:22:09 UTC". */
const char *time_text(time_t seconds, char *text);
#define TIME_SIZE 40

/* ---- table.c: the bytes of a table (document 01's layout) */

/* A clock record has its kind, its place and, in its last bytes, the running count; roster lines and slots stand behind it. */
enum {
    CLOCK_SIZE = 9, CLOCK_SIZE_13 = 13, PLACE_AT = 1, RUNNING_SIZE = 4, LINE_SIZE = 19, SLOT_SIZE = 320,
    SHARE_AT = 17, LIMIT_AT = 18, UNLISTED_LIMIT = 4,
    ADDRESS_AT = 1, PORT_AT = 17, NUMBER_AT = 19, LEASE_AT = 27, STAMP_AT = 31, TYPE_AT = 35, CLASS_AT = 37, NAME_AT = 40,
    KIND_LISTED = 3, KIND_FREE = 4, KIND_ESTABLISHED = 6,
    WEEK = 604800
};

struct table {
    size_t length;
    uint8_t bytes[LLQ_TABLE_SIZE_13(SLOTS_MOST) + 1]; /* one more, so that a file that is longer is seen to be */
};

struct roster {
    size_t length;
    uint8_t bytes[LINES_MOST * LINE_SIZE];
};

uint64_t number_at(const uint8_t *bytes, size_t width);
/* The length of a table with weeks of so many bits, 10 or 13. */
size_t length_of(unsigned bits, size_t slots);
/* What a table's length says: the bits of its weeks, the seconds of their cycle, the bytes of its clock record, its slots. */
unsigned week_bits(const struct table *table);
int64_t cycle_of(const struct table *table);
size_t clock_size(const struct table *table);
size_t slots_of(const struct table *table);
/* The clock's place and its running count. */
uint64_t place_of(const struct table *table);
uint32_t running_of(const struct table *table);
/* Where a slot begins, and its bytes. */
size_t slot_at(const struct table *table, size_t index);
const uint8_t *slot_of(const struct table *table, size_t index);
/* The listed line at `index`, or NULL past the last. */
const uint8_t *line_at(const struct table *table, size_t index);
/* The index of an address's line, or -1. */
int line_of(const struct table *table, const uint8_t *address);
unsigned share_of(const struct table *table, const uint8_t *address);
unsigned limit_of(const struct table *table, const uint8_t *address);
unsigned held_by(const struct table *table, const uint8_t *address);
size_t entries_of(const struct table *table);
size_t reserve_of(const struct table *table);
/* The entry with this LLQ number, or NULL. */
const uint8_t *entry_of(const struct table *table, uint64_t number);
/* Whether two tables are the same but for their clocks. */
bool same_table(const struct table *one, const struct table *other);
/* Whether the library finds the table sound. */
bool sound(struct table *table);
/* An address of 16 bytes as text: IPv4-mapped ones as IPv4. */
const char *address_text(const uint8_t *address, char *text);
#define ADDRESS_SIZE INET6_ADDRSTRLEN

/* ---- rebuild.c: the same clock and entries under another roster or number of slots */

struct roster roster_of(const struct table *table);
bool same_roster(const struct roster *one, const struct roster *other);
size_t shares_of(const struct roster *roster);
/* False, with the rule that stands against it in `reason`, if the new table would not be sound. */
bool rebuild(const struct table *old, size_t slots, const struct roster *roster, struct table *fresh, char *reason);
/* The line that a rebuilt table was taken. */
void say_rebuilt(const struct table *table);

/* ---- roster.c: the roster's file */

/* Text as a number from `least` to `most`, or -1. */
int number_of(const char *text, int least, int most);

/* Reads lines ADDRESS SHARE LIMIT. False, with file, line and error in `reason`, where that cannot be done. */
bool read_roster(const char *path, struct roster *roster, char *reason);

/* ---- clock.c: readings for the library */

struct reading {
    uint32_t week, second;
};

/* Milliseconds since boot. */
int64_t milliseconds(void);
/* The system's clock may be right, is before the program's build date, or is well before the state file's time. */
enum clock { CLOCK_SET, CLOCK_WRONG, CLOCK_EARLY };
/* Which of these; if it may not be right, why, in `reason`. `saved` is when the state file was written, or 0. */
enum clock clock_set(time_t saved, const char *path, char *reason);
/*
 * Take the system's clock once. A table that is taken up was saved at `saved`, NULL without one: readings go on from its place
 * and the time that has passed since. Whether it or its file is ahead of the system's clock: it is saved at once then, so that
 * the next start can tell how much time has passed.
 */
bool clock_start(const struct table *table, time_t saved);
/* After the table's first tick: if the system's clock is more than a minute behind it, it goes back there, and readings too. */
void clock_back(struct table *table);
/* The reading at present, by the time since boot and in the table's weeks. */
struct reading clock_reading(const struct table *table);
/* The reading at which a saved table stands at present, for people. */
struct reading clock_saved(const struct table *table, time_t saved);
/* To be called once a second: logs a step of the system's clock; whether there was one. */
bool clock_watch(void);
/* Nanoseconds until the reading's second changes. */
long clock_left(void);

/* ---- state.c: the table's file */

/* Opens the file and takes it up: false if there is none. Dies if it is not a sound table or another host has it. */
bool state_open(const char *path, struct table *table);
/* When the file was last written; 0 if there is none. */
time_t state_time(void);
/* The same without the lock, for --show. Dies if there is none. Returns the file's time. */
time_t state_read(const char *path, struct table *table);
/* After SAVE_UNSURE the file is the new one, but after a loss of power it may be the old one. */
enum save { SAVE_DONE, SAVE_FAILED, SAVE_UNSURE };
/* Writes the file so that after a crash at any moment it is whole, the old one or the new one. */
enum save state_save(const char *path, const struct table *table, int *error);
/* Syncs the file that was taken up: whether it is on disk now. */
bool state_settle(const char *path);
/* Why a save failed. */
const char *state_error(int error);

/* ---- saver.c: a thread that saves, so that serving goes on meanwhile */

/* Returns a descriptor that can be read when a save has ended. */
int saver_start(const char *path);
/* One save at a time. */
void saver_give(const struct table *table);
struct saved {
    enum save how;
    int error;
    double seconds;
};
/* Waits for the save that was given, so many ms at most; false if it has not ended. */
bool saver_take(struct saved *saved, int wait);

/* ---- sockets.c */

/* The way back to a sender: the socket, its address, and the address that it asked. */
struct route {
    int socket;
    socklen_t peer_length;
    size_t control_length;
    union {
        struct sockaddr any;
        struct sockaddr_in v4;
        struct sockaddr_in6 v6;
    } peer;
    _Alignas(struct cmsghdr) uint8_t control[CMSG_SPACE(sizeof(struct in6_pktinfo))];
};

struct arrival {
    struct route route;
    uint8_t address[16]; /* IPv4 mapped */
    uint16_t port;
    bool link_local; /* a link-local sender on a socket that is not bound to one interface */
    size_t length;
    uint8_t bytes[LLQ_REPLY_MOST + 1]; /* one more than the longest datagram, so that a longer one is seen to be */
};

#define SOCKETS_MOST 8
struct endpoint {
    int socket;
    bool one_link;
};
/* Binds all sockets; dies if one cannot be had. */
void sockets_open(const char *const *addresses, size_t count, const char *port, struct endpoint *endpoints);
/* Up to BATCH_MOST waiting datagrams by one system call; their number. */
size_t sockets_receive(const struct endpoint *endpoint, struct arrival *arrivals);
/* Replies leave in lots; the bytes must stay until sockets_flush. */
void sockets_send(const struct route *route, const uint8_t *bytes, size_t length);
void sockets_flush(void);

/* ---- outcome.c: what a reply says */

struct llq_option {
    uint16_t version, opcode, error;
    uint64_t number;
    uint32_t lease;
};

enum outcome { GRANTED, GRANTED_BEFORE, FULL, ESTABLISHED, RENEWED, ENDED, NO_SUCH, FORMAT, VERSION, OUTCOMES };

struct answer {
    const uint8_t *question;
    struct llq_option asked, told;
    enum outcome outcome;
};

struct answers {
    size_t count, questions, asked; /* answers, questions, LLQ options that were sent */
    bool mismatched;                /* failed the count and length test: no answer to any question */
    struct answer answer[OPTIONS_MOST];
};

/* A reply of the library's beside the datagram and the host's number that it answers. */
void read_answers(const struct arrival *asked, uint64_t random, const uint8_t *reply, struct answers *answers);

/* ---- words.c: --verbose and the counters */

struct counts {
    uint64_t datagrams, answered, link_local, refused[LLQ_ROOM + 1], outcomes[OUTCOMES], no_such_response, mismatched;
    uint64_t run_out, held, dropped, unsent, saves, saves_failed;
    double longest_save;
    time_t since;
};
extern struct counts counts;

/* What an address holds and how many slots are free just before a datagram is served. */
struct holdings {
    unsigned held, limit;
    size_t free;
};
void count_answers(const struct answers *answers);
void print_answers(const struct arrival *asked, const struct answers *answers, struct holdings holdings);
void print_refusal(const struct arrival *asked, uint32_t number);
void print_counts(FILE *out);

/* ---- show.c: a table for people */

/* A name of the wire and a question's class and type as text. */
void print_name(FILE *out, const uint8_t *name);
const char *type_text(unsigned type, char *text);
const char *class_text(unsigned class, char *text);
#define WORD_SIZE 16
/* `title` ends the first line. The table is taken to the reading first. */
void show_table(FILE *out, struct table *table, struct reading now, const char *title);

/* ---- keep.c: what is on disk, and the replies that wait for it */

/* `path` may be NULL: then nothing is kept. `saved` is the table of the file, `settled` whether that is on disk for certain. */
int keep_start(const char *path, const struct table *saved, bool settled);
/* To be called after each call of the library: whether it changed the table. */
bool keep_changed(const struct table *table);
/* Send a reply, now or when what it tells of is on disk. */
void keep_reply(const struct table *table, bool changed, const struct arrival *asked, const struct answers *answers,
                const uint8_t *reply, size_t length);
/* Save again although nothing changed; before keep_start, when the loop begins. */
void keep_again(void);
/* Whether a save may begin: there are changes, none is under way, and the last one did not fail. */
bool keep_due(void);
/* How many replies wait. */
size_t keep_waiting(void);
/* Start a save if there are changes; `second` is true once a second, when one that failed is tried again. */
void keep_save(const struct table *table, bool second);
/* A save has ended: send what waited for it. */
void keep_saved(void);
/* Wait for the last save; false if there are changes that are not saved. */
bool keep_end(const struct table *table);

/* ---- loop.c */

struct settings {
    const char *roster_path, *state_path;
    bool verbose;
};
/* Serves until SIGTERM or SIGINT, which come by `signals` like all others. */
void run(struct table *table, const struct settings *settings, const struct endpoint *endpoints, size_t count, int signals,
         int saves);

#endif
