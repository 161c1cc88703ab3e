/* A small heating controller on UDP port argv[1] of 127.0.0.1 (0: any; the port is printed), for argv[2] seconds (default 60): device 78 with two sensors, two
 * set-points with limits, a relay that follows the room, and a log file of the set-points that the network wrote. It prints each of them too. */
#define _POSIX_C_SOURCE 200809L
#include "bac.h"

#include <arpa/inet.h>
#include <poll.h>
#include <stdio.h>
#include <stdlib.h>
#include <string.h>
#include <sys/socket.h>
#include <time.h>
#include <unistd.h>

enum { PRESENT_VALUE = 85, OUT_OF_SERVICE = 81, STATUS_FLAGS = 111, UNITS = 117, DEGREES_CELSIUS = 62 };
enum { ANALOG_INPUT = 0, ANALOG_VALUE = 2, BINARY_OUTPUT = 4, DEVICE = 8, FILE_OBJECT = 10 };
enum { SUPPLY = 1, ROOM = 2, RELAY = 1, LOG = 1, FILE_LIMIT = 60000, BACK_OFF = 50 };

static uint64_t moment(void) /* milliseconds */
{
    struct timespec t;
    clock_gettime(CLOCK_BOOTTIME, &t);
    return (uint64_t)t.tv_sec * 1000 + (uint64_t)t.tv_nsec / 1000000;
}

/* ---- the device */

static bac_status add_object(bac_node *node, uint16_t type, uint32_t instance, const char *name)
{
    return bac_add_object(node, type, instance, (const uint8_t *)name, strlen(name));
}

/* what each point has beside its value: it is in service, without alarm, fault or override */
static bac_status add_state(bac_node *node)
{
    uint8_t flags[7], no[1];
    bac_status s = bac_add_property(node, STATUS_FLAGS, flags, bac_put_bits(flags, 0, 4), false);
    bac_put_boolean(no, false);
    return s == BAC_OK ? bac_add_property(node, OUT_OF_SERVICE, no, sizeof no, false) : s;
}

static bac_status add_temperature(bac_node *node, uint16_t type, uint32_t instance, const char *name, float value, bool writable)
{
    uint8_t octets[5];
    bac_status s = add_object(node, type, instance, name);
    bac_put_float(octets, value);
    if (s == BAC_OK) { s = bac_add_property(node, PRESENT_VALUE, octets, sizeof octets, writable); }
    if (s == BAC_OK && writable) { s = bac_limit_float(node, 5.0f, 35.0f); }
    if (s == BAC_OK) { s = bac_add_property(node, UNITS, octets, bac_put_number(octets, 9, DEGREES_CELSIUS), false); }
    return s == BAC_OK ? add_state(node) : s;
}

static bac_status begin(bac_node *node, const bac_settings *settings)
{
    static const uint8_t inactive[] = { 0x91, 0 };
    bac_status s = bac_open(node);
    if (s == BAC_OK) { s = add_object(node, DEVICE, 78, "heating"); }
    if (s == BAC_OK) { s = add_temperature(node, ANALOG_INPUT, SUPPLY, "supply temperature", 20.0f, false); }
    if (s == BAC_OK) { s = add_temperature(node, ANALOG_INPUT, ROOM, "room temperature", 18.0f, false); }
    if (s == BAC_OK) { s = add_temperature(node, ANALOG_VALUE, SUPPLY, "supply set-point", 30.0f, true); }
    if (s == BAC_OK) { s = add_temperature(node, ANALOG_VALUE, ROOM, "room set-point", 21.0f, true); }
    if (s == BAC_OK) { s = add_object(node, BINARY_OUTPUT, RELAY, "relay"); }
    if (s == BAC_OK) { s = bac_add_property(node, PRESENT_VALUE, inactive, sizeof inactive, false); }
    if (s == BAC_OK) { s = add_state(node); }
    if (s == BAC_OK) { s = add_object(node, FILE_OBJECT, LOG, "log"); }
    if (s == BAC_OK) { s = bac_add_file(node, inactive, 0, false); }
    return s == BAC_OK ? bac_start_described(node, settings) : s;
}

static void tell_problem(const bac_node *node, bac_status status)
{
    bac_refused refused;
    char name[64];
    fprintf(stderr, "%s\n", bac_text(status));
    if (status == BAC_BAD_OBJECT && bac_problem(node, &refused) == BAC_OK) {
        fprintf(stderr, "object %llu, %s: %s\n", (unsigned long long)refused.object + 1, bac_name_text(BAC_PROPERTY, refused.property, name, sizeof name),
                bac_flaw_text(refused.flaw));
    }
}

/* ---- what it does */

static float value_of(const bac_node *node, uint16_t type, uint32_t instance)
{
    bac_reference reference = { type, instance, PRESENT_VALUE, BAC_WHOLE };
    uint8_t octets[5];
    size_t len = 0;
    float value = 0.0f;
    if (bac_get_value(node, &reference, octets, sizeof octets, &len) == BAC_OK) { bac_take_float(octets, len, &value); }
    return value;
}

static void set_real(bac_node *node, uint16_t type, uint32_t instance, float value)
{
    uint8_t octets[5];
    bac_put_float(octets, value);
    if (bac_set_value(node, type, instance, PRESENT_VALUE, octets, sizeof octets) != BAC_OK) {
        fprintf(stderr, "%u:%u stays\n", (unsigned)type, (unsigned)instance); /* no memory: it is set again in a moment */
    }
}

/* The relay is on where the room is colder than wanted; then the room gets warmer, and otherwise colder. */
static void control(bac_node *node)
{
    float room = value_of(node, ANALOG_INPUT, ROOM);
    bool on = room < value_of(node, ANALOG_VALUE, ROOM);
    uint8_t state[] = { 0x91, (uint8_t)on };
    if (bac_set_value(node, BINARY_OUTPUT, RELAY, PRESENT_VALUE, state, sizeof state) != BAC_OK) { return; }
    set_real(node, ANALOG_INPUT, ROOM, room + (on ? 0.1f : -0.1f));
    set_real(node, ANALOG_INPUT, SUPPLY, on ? value_of(node, ANALOG_VALUE, SUPPLY) : 20.0f);
}

/* Logs the set-point that the network wrote, if it did. */
static void act(bac_node *node)
{
    static uint8_t scratch[FILE_LIMIT];
    bac_act a;
    uint8_t octets[16];
    char line[64];
    float value = 0.0f;
    size_t len = bac_performed(node, &a, octets, sizeof octets);
    if (a.service != 15 || !a.done || len > sizeof octets || !bac_take_float(octets, len, &value)) { return; }
    int count = snprintf(line, sizeof line, "set %u:%u %.2f priority %u\n", (unsigned)a.object_type, (unsigned)a.instance, (double)value, (unsigned)a.priority);
    printf("%s", line);
    fflush(stdout);
    bac_status s = bac_append_file(node, LOG, (const uint8_t *)line, (size_t)count, scratch, sizeof scratch);
    if (s == BAC_TOO_LONG) { s = bac_set_file(node, LOG, (const uint8_t *)line, (size_t)count); } /* it is full: it begins anew */
    if (s != BAC_OK) { fprintf(stderr, "the log: %s\n", bac_text(s)); }
}

/* ---- datagrams */

static void send_all(const bac_node *node, int s)
{
    uint8_t to[6], out[1514];
    for (size_t i = 0; i < bac_sends(node); i++) {
        size_t len = bac_send(node, i, to, out, sizeof out);
        struct sockaddr_in a;
        memset(&a, 0, sizeof a);
        a.sin_family = AF_INET;
        memcpy(&a.sin_addr, to, 4);
        memcpy(&a.sin_port, to + 4, 2);
        if (sendto(s, out, len, 0, (struct sockaddr *)&a, sizeof a) < 0) { perror("sendto"); } /* lost: the peer repeats */
    }
}

static void hear(bac_node *node, int s)
{
    uint8_t in[2048], from[6];
    struct sockaddr_in peer;
    socklen_t size = sizeof peer;
    ssize_t len = recvfrom(s, in, sizeof in, 0, (struct sockaddr *)&peer, &size);
    if (len < 0) { return; }
    memcpy(from, &peer.sin_addr, 4);
    memcpy(from + 4, &peer.sin_port, 2);
    if (bac_on(node, moment(), from, in, (size_t)len) != BAC_OK) { return; } /* no memory: as if it were lost */
    send_all(node, s);
    act(node);
}

static void run(bac_node *node, int s, uint64_t last)
{
    uint64_t moves = 0, back_off = 0; /* after a tick that was refused memory, none before that moment: what is due stays due */
    for (uint64_t now = moment(); now < last; now = moment()) {
        uint64_t due = bac_next_due(node), until;
        if (due < back_off) { due = back_off; }
        until = due < moves ? due : moves;
        struct pollfd p = { s, POLLIN, 0 };
        if (poll(&p, 1, until <= now ? 0 : until - now > 1000 ? 1000 : (int)(until - now)) > 0) { hear(node, s); }
        now = moment();
        if (now >= due) {
            bac_status ticked = bac_tick(node, now);
            if (ticked == BAC_OK) { send_all(node, s); }
            if (ticked == BAC_NO_MEMORY) { back_off = now + BACK_OFF; }
        }
        if (now >= moves) {
            moves = now + 200;
            control(node);
        }
    }
}

int main(int argc, char **argv)
{
    int s = socket(AF_INET, SOCK_DGRAM, 0);
    struct sockaddr_in a;
    socklen_t size = sizeof a;
    memset(&a, 0, sizeof a);
    a.sin_family = AF_INET;
    a.sin_port = htons((uint16_t)(argc > 1 ? atoi(argv[1]) : 47808));
    a.sin_addr.s_addr = htonl(INADDR_LOOPBACK);
    if (s < 0 || bind(s, (struct sockaddr *)&a, sizeof a) != 0 || getsockname(s, (struct sockaddr *)&a, &size) != 0) {
        perror("bind");
        return 1;
    }
    bac_settings settings = BAC_SETTINGS(127, 0, 0, 1, 0, 0); /* for clients of this library; for others reuse_invoke_ids = true, as in boiler.c */
    memcpy(settings.link + 4, &a.sin_port, 2);
    settings.reply_slots = 1024;
    bac_node node = BAC_NODE_EMPTY;
    bac_status status = begin(&node, &settings);
    if (status == BAC_OK) {
        printf("port %u\n", (unsigned)ntohs(a.sin_port));
        fflush(stdout);
        run(&node, s, moment() + 1000 * (uint64_t)(argc > 2 ? atol(argv[2]) : 60));
    } else {
        tell_problem(&node, status);
    }
    bac_close(&node);
    close(s);
    return status != BAC_OK;
}
