/*
 * stack.c - how deep the calls of llq.h go into the stack.
 *
 * Each call is made in a thread whose stack is filled with a byte first; the depth is from the caller's frame down to the lowest
 * byte that is another one after the call. Two fills, so that no byte is missed because it was written with the fill's value.
 */
#include <pthread.h>
#include <stdio.h>
#include <stdlib.h>
#include <string.h>

#include "../include/llq.h"

enum { SLOTS = 64, CLIENTS = 8, QUESTIONS = 8, LINE = LLQ_ROSTER_RECORD, OPTION = 22, STACK = 1 << 20, NOW = 200000 };
enum { SETUP = 1, REFRESH = 2 };

static _Alignas(4096) uint8_t stack[STACK];
static uint8_t table[LLQ_TABLE_SIZE_13(SLOTS)], roster[CLIENTS * LINE], datagram[LLQ_REPLY_MOST], reply[LLQ_REPLY_MOST];
static size_t table_length, datagram_length;
static uint32_t week;
static unsigned client;
static uint64_t numbers[CLIENTS][QUESTIONS];
static size_t deepest; /* of llq_serve */

static void die(const char *what)
{
    fprintf(stderr, "stack: %s\n", what);
    exit(1);
}

/* ---- datagrams */

static void put(uint64_t value, size_t bytes)
{
    while (bytes-- > 0)
        datagram[datagram_length++] = (uint8_t)(value >> 8 * bytes);
}

static void put_label(const char *label)
{
    put(strlen(label), 1);
    memcpy(datagram + datagram_length, label, strlen(label));
    datagram_length += strlen(label);
}

/* A query of the client's with 8 questions and their options. */
static void write_query(uint16_t opcode, const uint64_t *known, uint32_t lease)
{
    char first[16];
    datagram_length = 0;
    put(0x5a5a0100, 4);
    put(QUESTIONS, 2);
    put(1, 6);
    for (unsigned i = 0; i < QUESTIONS; i++) {
        snprintf(first, sizeof first, "_gate%u-%02u", i, client);
        put_label(first);
        put_label("_udp");
        put_label("Museum");
        put_label("example");
        put(0, 1);
        put(0x000c0001, 4);
    }
    put(0x000029, 3);
    put(LLQ_REPLY_MOST, 2);
    put(0, 4);
    put(QUESTIONS * OPTION, 2);
    for (unsigned i = 0; i < QUESTIONS; i++) {
        put(0x000100120001, 6);
        put(opcode, 2);
        put(0, 2);
        put(known ? known[i] : 0, 8);
        put(lease, 4);
    }
}

/* ---- calls */

static uint32_t nothing(void) { return LLQ_DONE; }
static uint32_t make(void) { return llq_make(week, NOW, table, table_length, roster, sizeof roster); }
static uint32_t tick(void) { return llq_tick(week, NOW, table, table_length).number; }

static uint32_t serve(void)
{
    return llq_serve(week, NOW, 0, UINT64_C(0xffffc0000200) + client, 5352, UINT64_C(0x9e3779b97f4a7c15) * (client + 1), datagram,
                     datagram_length, table, table_length, reply, sizeof reply).number;
}

/* ---- depth */

struct run {
    uint32_t (*call)(void);
    uint8_t fill;
    uint32_t number;
    size_t depth;
};

static void *in_thread(void *argument)
{
    struct run *run = argument;
    const volatile uint8_t *frame = __builtin_frame_address(0), *lowest = stack;
    run->number = run->call();
    while (lowest < frame && *lowest == run->fill)
        lowest++;
    run->depth = (size_t)(frame - lowest);
    return NULL;
}

static size_t depth_over(uint32_t (*call)(void), uint8_t fill)
{
    pthread_t thread;
    pthread_attr_t attributes;
    struct run run = {.call = call, .fill = fill};
    memset(stack, fill, sizeof stack);
    if (pthread_attr_init(&attributes) || pthread_attr_setstack(&attributes, stack, sizeof stack) ||
        pthread_create(&thread, &attributes, in_thread, &run) || pthread_join(thread, NULL))
        die("no thread");
    pthread_attr_destroy(&attributes);
    if (run.number != LLQ_DONE)
        die("a call is refused");
    return run.depth;
}

/* The depth of a call, which is made twice on the same table. */
static size_t depth_of(const char *name, uint32_t (*call)(void))
{
    static uint8_t before[sizeof table];
    memcpy(before, table, sizeof table);
    size_t one = depth_over(call, 0xa5);
    memcpy(table, before, sizeof table);
    size_t other = depth_over(call, 0x5a), depth = one > other ? one : other;
    printf("%-36s %7zu\n", name, depth);
    return depth;
}

/* The numbers that the last reply gives; each of its errors must be 0. */
static void take_numbers(uint64_t *known)
{
    const uint8_t *option = reply + datagram_length - QUESTIONS * OPTION;
    for (unsigned i = 0; i < QUESTIONS; i++, option += OPTION) {
        if (option[8] != 0 || option[9] != 0)
            die("an option's error is not 0");
        known[i] = 0;
        for (unsigned byte = 10; byte < 18; byte++)
            known[i] = known[i] << 8 | option[byte];
    }
}

/* The client's query of this kind, served without a look at the stack. */
static void served(uint16_t opcode, const uint64_t *known, uint32_t lease)
{
    write_query(opcode, known, lease);
    if (serve() != LLQ_DONE)
        die("a query is refused");
    take_numbers(numbers[client]);
}

/* The client's query of this kind, and how deep serving it goes. */
static void served_depth(const char *name, uint16_t opcode, const uint64_t *known, uint32_t lease)
{
    write_query(opcode, known, lease);
    size_t depth = depth_of(name, serve);
    take_numbers(numbers[client]);
    deepest = depth > deepest ? depth : deepest;
}

/* The depths on a table of this length, whose weeks have so many bits. */
static void depths(size_t length, unsigned bits)
{
    char title[40];
    table_length = length;
    week = (1u << bits) - 1;
    snprintf(title, sizeof title, "table of %d slots, weeks of %u bits", SLOTS, bits);
    printf("%-36s %7s\n", title, "bytes");
    depth_of("none: the thread's own", nothing);
    depth_of("make", make);
    for (client = 0; client < CLIENTS - 1; client++) {
        served(SETUP, NULL, 7200);
        served(SETUP, numbers[client], 7200);
    }
    served_depth("serve, 8 setups that fill the table", SETUP, NULL, 7200);
    depth_of("tick, full table", tick);
    served_depth("serve, 8 responses, full table", SETUP, numbers[client], 7200);
    served_depth("serve, 8 repeated setups, full table", SETUP, NULL, 7200);
    served_depth("serve, 8 refreshes, full table", REFRESH, numbers[client], 3600);
    served_depth("serve, 8 ends, full table", REFRESH, numbers[client], 0);
}

int main(void)
{
    for (unsigned i = 0; i < CLIENTS; i++)
        memcpy(roster + i * LINE, (uint8_t[LINE]){3, [11] = 0xff, 0xff, 192, 0, 2, (uint8_t)i, QUESTIONS, QUESTIONS}, LINE);
    depths(LLQ_TABLE_SIZE(SLOTS), 10);
    depths(LLQ_TABLE_SIZE_13(SLOTS), 13);
    printf("deepest stack use of llq_serve: %zu bytes\n", deepest);
    return 0;
}
