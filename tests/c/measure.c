/* What the calls of bac.h take over the heap of the examples, as docs/C.md says it: allocations of a call, the deepest stack, the time of a read. Nodes in
 * one process, with no socket; each row runs on a stack of its own, which is painted before. A row in segments is of all calls of both nodes together. */
#define _XOPEN_SOURCE 700
#include "bac.h"

#include <malloc.h>
#include <stdio.h>
#include <string.h>
#include <time.h>
#include <ucontext.h>

enum { STACK = 1 << 20, STACK_LIMIT = 12 * 1024, PAINT = 0xA5, READS = 100000, FILE_LEN = 60000, TEXT_LEN = 4000, WIRE = 256 };

extern unsigned long heap_count;

static const uint8_t HERE[6] = { 127, 0, 0, 1, 0xBA, 0xC0 }, THERE[6] = { 127, 0, 0, 1, 0xBA, 0xC2 }, ELSEWHERE[6] = { 127, 0, 0, 1, 0xBA, 0xC4 };
static const uint8_t QUESTION[] = { 0x81, 0x0A, 0, 0x11, 1, 4, 0, 5, 1, 0x0C, 0x0C, 0, 0, 0, 5, 0x19, 0x55 };
static const bac_reference VALUE = { 2, 1, 85, BAC_WHOLE }, DESCRIPTION = { 2, 1, 28, BAC_WHOLE };
static uint8_t stack[STACK], to[6], out[1514], many[FILE_LEN + 16];
static bac_node client = BAC_NODE_EMPTY, server = BAC_NODE_EMPTY, third = BAC_NODE_EMPTY;
static bac_target target = { { 127, 0, 0, 1, 0xBA, 0xC2 }, 5, true, 7 };
static bac_status status;
static uint64_t now, ticket;
static ucontext_t home, there;

/* ---- single calls */

static void nothing(void) {}

static void start(void)
{
    bac_settings s = BAC_SETTINGS(127, 0, 0, 1, 0xBA, 0xC0);
    s.max_apdu = target.max_apdu;
    status = bac_open(&client);
    if (!status) { status = bac_start_house(&client, &s); }
    memcpy(s.link, THERE, 6);
    if (!status) { status = bac_open(&server); }
    if (!status) { status = bac_start_house(&server, &s); }
}

static void stop(void)
{
    bac_close(&client);
    bac_close(&server);
}

/* an object with limits is listed, and looked at as bac_start would */
static void look(void)
{
    bac_node node = BAC_NODE_EMPTY;
    bac_refused refused = { 0, 0, BAC_FLAW_TYPE };
    uint8_t real[5];
    bac_put_float(real, 20.0f);
    status = bac_open(&node);
    if (!status) { status = bac_add_object(&node, 2, 1, (const uint8_t *)"set", 3); }
    if (!status) { status = bac_add_property(&node, 85, real, sizeof real, true); }
    if (!status) { status = bac_limit_float(&node, 5.0f, 35.0f); }
    if (!status) { status = bac_start_problem(&node, &refused); }
    if (!status && refused.flaw != BAC_FLAW_NONE) { status = BAC_BAD_OBJECT; }
    bac_close(&node);
}

static void read_one(void) { status = bac_on(&server, now, ELSEWHERE, QUESTION, sizeof QUESTION); }
static void drop_one(void) { status = bac_on(&server, now, ELSEWHERE, QUESTION, 3); }
static void tick(void) { status = bac_tick(&server, now); }
static void copy_one(void) { bac_send(&server, 0, to, out, sizeof out); }

static void set_value(void)
{
    static const uint8_t real[] = { 0x44, 0x41, 0x20, 0, 0 };
    status = bac_set_value(&server, 2, 1, 85, real, 5);
}

static void get_value(void)
{
    size_t len;
    status = bac_get_value(&server, &VALUE, out, sizeof out, &len);
}

static void start_kept(void)
{
    static const uint8_t real[] = { 0x44, 0x41, 0x20, 0, 0 };
    bac_settings s = BAC_SETTINGS(127, 0, 0, 1, 0xBA, 0xC0);
    uint64_t place;
    status = bac_open(&third);
    if (!status) { status = bac_add_object(&third, 2, 1, real, 0); }
    if (!status) { status = bac_add_property(&third, 85, real, 5, true); }
    if (!status) { status = bac_add_object(&third, 10, 1, real, 1); }
    if (!status) { status = bac_add_file(&third, many, FILE_LEN, true); }
    if (!status) { status = bac_add_kept(&third, (((uint64_t)2 << 22 | 1) << 22) | 85, real, 5); }
    if (!status) { status = bac_start_kept(&third, &s, now, &place); }
}

static void tell_cells(void)
{
    static const bac_reference file = { 10, 1, BAC_WHOLE, 0 };
    uint64_t place;
    for (size_t i = 0; i < bac_cells(&third, &file); i++) { bac_cell(&third, &file, i, &place, out, sizeof out); }
}

static void stop_kept(void) { bac_close(&third); }

static void ask(void) { status = bac_ask_read(&client, now, &target, &VALUE, &ticket); }

/* ---- requests and replies in segments */

static struct { bool at_server; size_t len; uint8_t octets[1514]; } wire[WIRE];
static size_t first, count, sent;
static unsigned loses, chance; /* one datagram of so many is lost, as generated; 0: none */

static void send_all(bac_node *from)
{
    for (size_t i = 0; i < bac_sends(from) && count < WIRE; i++) {
        sent++;
        chance = chance * 1103515245u + 12345;
        if (loses != 0 && (chance >> 16) % loses == 0) { continue; }
        size_t at = (first + count) % WIRE;
        wire[at].len = bac_send(from, i, to, wire[at].octets, sizeof wire[at].octets);
        wire[at].at_server = memcmp(to, THERE, 6) == 0;
        count++;
    }
}

/* the next datagram comes, or where none is under way, the next moment */
static bac_node *step(void)
{
    bac_node *node = bac_next_due(&client) < bac_next_due(&server) ? &client : &server;
    if (count == 0) {
        now = bac_next_due(node) > now ? bac_next_due(node) : now;
        status = bac_tick(node, now);
        return node;
    }
    size_t at = first;
    first = (first + 1) % WIRE;
    count--;
    node = wire[at].at_server ? &server : &client;
    status = bac_on(node, now, wire[at].at_server ? HERE : THERE, wire[at].octets, wire[at].len);
    return node;
}

/* all goes over and back, until the ask that was begun has ended as wanted */
static void carry(uint32_t how)
{
    bac_ending e = { 0, BAC_ERROR, 0, 0, 0 };
    bac_node *node = &client;
    for (;;) {
        if (status != BAC_OK) { return; }
        send_all(node);
        if (node == &client && bac_ends(&client) > 0) { break; }
        node = step();
    }
    bac_end(&client, 0, &e, many, sizeof many);
    if (e.ticket != ticket || e.how != how) {
        printf("ended %u, code %u\n", (unsigned)e.how, (unsigned)e.code);
        status = BAC_BAD_REQUEST;
    }
}

static void put(void)
{
    status = bac_ask_put(&client, now, &target, 1, 0, many, FILE_LEN, &ticket);
    carry(BAC_PLACED);
}

static void get(void)
{
    status = bac_ask_get(&client, now, &target, 1, 0, FILE_LEN, &ticket);
    carry(BAC_CONTENT);
}

static void write_text(void)
{
    static uint8_t data[TEXT_LEN + 5];
    static char text[TEXT_LEN];
    memset(text, 'x', sizeof text);
    size_t len = bac_put_text(data, sizeof data, text, sizeof text);
    status = bac_ask_write(&client, now, &target, &DESCRIPTION, data, len, 0, &ticket);
    carry(BAC_DONE);
}

static void read_text(void)
{
    status = bac_ask_read(&client, now, &target, &DESCRIPTION, &ticket);
    carry(BAC_VALUES);
}

/* ---- how it is measured */

static size_t used(void)
{
    size_t low = 0;
    while (low < STACK && stack[low] == PAINT) { low++; }
    return STACK - low;
}

/* the stack that it takes beyond what a function takes that does nothing */
static size_t on_stack(void (*what)(void))
{
    static size_t least;
    memset(stack, PAINT, sizeof stack);
    getcontext(&there);
    there.uc_stack.ss_sp = stack;
    there.uc_stack.ss_size = sizeof stack;
    there.uc_link = &home;
    makecontext(&there, what, 0);
    swapcontext(&home, &there);
    if (what == nothing) { least = used(); }
    return used() - least;
}

static int row(const char *name, void (*what)(void))
{
    heap_count = 0;
    size_t deep = on_stack(what);
    printf("%-36s %6lu allocations %6lu octets of stack\n", name, heap_count, (unsigned long)deep);
    if (status != BAC_OK) { printf("%s: %s\n", name, bac_text(status)); }
    if (deep > STACK_LIMIT) { printf("%s: more stack than docs/C.md says\n", name); }
    return status != BAC_OK || deep > STACK_LIMIT;
}

static int single_rows(void)
{
    int failed = row("nothing", nothing);
    failed |= row("two houses are started", start);
    failed |= row("an object is listed and looked at", look);
    failed |= row("a read that is answered", read_one);
    failed |= row("its repeat", read_one);
    failed |= row("a datagram that is dropped", drop_one);
    failed |= row("a tick with nothing to do", tick);
    failed |= row("bac_set_value", set_value);
    failed |= row("bac_get_value", get_value);
    failed |= row("bac_send", copy_one);
    failed |= row("bac_ask_read", ask);
    failed |= row("a start with a kept cell", start_kept);
    failed |= row("60 cells of a file are told", tell_cells);
    failed |= row("bac_close of that node", stop_kept);
    return failed | row("bac_close of both", stop);
}

static int segment_rows(uint8_t max_apdu, unsigned lost)
{
    int failed = 0;
    target.max_apdu = max_apdu;
    loses = lost;
    start();
    printf("APDUs of size %u, one datagram of %u lost (0: none)\n", (unsigned)max_apdu, lost);
    if (max_apdu >= 3) {
        failed |= row("60,000 octets put in segments", put);
        failed |= row("60,000 octets got in segments", get);
    }
    failed |= row("4,000 octets written in segments", write_text);
    failed |= row("4,000 octets read in segments", read_text);
    printf("%lu datagrams\n", (unsigned long)sent);
    stop();
    first = count = sent = 0;
    return failed;
}

#if defined __GLIBC__ && __GLIBC_PREREQ(2, 33)
/* the octets of the heap that a node takes that was started with so many slots, and no objects */
static size_t heap_of(size_t client_slots, size_t reply_slots)
{
    bac_settings s = BAC_SETTINGS(127, 0, 0, 1, 0xBA, 0xC0);
    size_t before = mallinfo2().uordblks, taken;
    s.client_slots = client_slots;
    s.reply_slots = reply_slots;
    status = bac_open(&client);
    if (!status) { status = bac_start(&client, &s); }
    taken = mallinfo2().uordblks - before;
    bac_close(&client);
    return taken;
}

static void print_slots(void)
{
    size_t one = heap_of(1, 1);
    printf("%lu octets of heap for a node of one slot at each end\n", (unsigned long)one);
    printf("%lu octets a client slot, %lu a reply slot, at first\n", (unsigned long)((heap_of(1024, 1) - one) / 1023),
           (unsigned long)((heap_of(1, 1024) - one) / 1023));
}
#else
static void print_slots(void) {}
#endif

/* the least time of a read that is answered and copied out, of ten batches, in nanoseconds */
static double fastest(void)
{
    double least = 1e9;
    for (int batch = 0; batch < 10; batch++) {
        struct timespec a, b;
        clock_gettime(CLOCK_MONOTONIC, &a);
        for (int i = 0; i < READS; i++) {
            now += 65001; /* no request is remembered */
            read_one();
            copy_one();
        }
        clock_gettime(CLOCK_MONOTONIC, &b);
        double each = ((double)(b.tv_sec - a.tv_sec) * 1e9 + (double)(b.tv_nsec - a.tv_nsec)) / READS;
        if (each < least) { least = each; }
    }
    return least;
}

int main(void)
{
    int failed = single_rows();
    failed |= segment_rows(5, 0) | segment_rows(5, 7) | segment_rows(3, 0) | segment_rows(3, 7) | segment_rows(0, 0) | segment_rows(0, 7);
    print_slots();
    start();
    printf("%.1f microseconds for a read that is answered and copied out\n", fastest() / 1000);
    stop();
    return failed;
}
