/* Replays a script of `bac simulate` with two nodes (standard input) through the calls of bac.h, and prints what simulate prints, but for the number of a
 * request that was performed and the invoke ID of an ask. A copy that is older than 5,000 ms is lost, as there. */
#include "bac.h"

#include <stdio.h>
#include <stdlib.h>
#include <string.h>

enum { NODES = 2, MOST = 4096, ROOM = 70000 };

static struct copy {
    int from, to;
    uint64_t sent;
    size_t len;
    uint8_t *octets;
} copies[MOST];
static size_t copy_count;
static bac_node nodes[NODES];
static uint64_t now, asks, ask_of[NODES][MOST];

static void hex(const uint8_t *octets, size_t len)
{
    for (size_t i = 0; i < len; i++) {
        printf("%02X", octets[i]);
    }
}

static size_t unhex(const char *text, uint8_t *out)
{
    size_t len = 0;
    unsigned octet;
    for (; len < ROOM && sscanf(text, "%2x", &octet) == 1; text += 2) {
        out[len++] = (uint8_t)octet;
    }
    return len;
}

static int node_at(const uint8_t link[6])
{
    return link[4] * 256 + link[5] - 47808;
}

static void link_of(int node, uint8_t link[6])
{
    static const uint8_t host[4] = { 127, 0, 0, 1 };
    memcpy(link, host, 4);
    link[4] = (uint8_t)((47808 + node) >> 8);
    link[5] = (uint8_t)(47808 + node);
}

static void print_end(int node, size_t index)
{
    static uint8_t octets[ROOM];
    bac_ending e;
    size_t len = bac_end(&nodes[node], index, &e, octets, sizeof octets);
    printf("ended %lu ", (unsigned long)ask_of[node][e.ticket]);
    switch (e.how) {
    case BAC_VALUES:
        printf("answered read ");
        hex(octets, len);
        break;
    case BAC_DONE: printf("answered written"); break;
    case BAC_ERROR: printf("answered error %u:%u", (unsigned)e.class_, (unsigned)e.code); break;
    case BAC_REJECT: printf("rejected %u", (unsigned)e.code); break;
    case BAC_ABORT: printf("aborted %u", (unsigned)e.code); break;
    case BAC_TIMED_OUT: printf("timed-out"); break;
    case BAC_EXPIRED: printf("expired"); break;
    case BAC_CONTENT:
        printf("answered file %u %ld ", (unsigned)e.code, (long)e.position);
        hex(octets, len);
        break;
    default: printf("answered position %ld", (long)e.position);
    }
    printf("\n");
}

/* what came of a call of that node; whether anything did */
static int tell(int node)
{
    static uint8_t octets[ROOM];
    bac_act a;
    int told = 0;
    bac_performed(&nodes[node], &a, octets, sizeof octets);
    if (a.service != 0) {
        printf("performed\n");
        told = 1;
    }
    for (size_t i = 0; i < bac_ends(&nodes[node]); i++) {
        print_end(node, i);
        told = 1;
    }
    for (size_t i = 0; i < bac_sends(&nodes[node]) && copy_count < MOST; i++) {
        struct copy *c = &copies[copy_count];
        uint8_t to[6];
        c->len = bac_send(&nodes[node], i, to, octets, sizeof octets);
        c->octets = malloc(c->len);
        memcpy(c->octets, octets, c->len);
        c->from = node;
        c->to = node_at(to);
        c->sent = now;
        printf("sent %lu %d>%d ", (unsigned long)copy_count++, node, c->to);
        hex(octets, c->len);
        printf("\n");
        told = 1;
    }
    return told;
}

static bac_status ask(int client, int server, char *words, uint64_t *ticket)
{
    static uint8_t octets[ROOM];
    static char text[2 * ROOM + 1];
    bac_target t = { { 0, 0, 0, 0, 0, 0 }, 5, true, 7 };
    bac_reference r = { 0, 0, 0, BAC_WHOLE };
    unsigned type, instance, property;
    long position;
    unsigned long count;
    link_of(server, t.link);
    text[0] = '\0';
    if (sscanf(words, "read %u:%u %u", &type, &instance, &property) == 3) {
        r.object_type = (uint16_t)type, r.instance = instance, r.property = property;
        return bac_ask_read(&nodes[client], now, &t, &r, ticket);
    }
    if (sscanf(words, "write %u:%u %u %s", &type, &instance, &property, text) >= 3) {
        r.object_type = (uint16_t)type, r.instance = instance, r.property = property;
        return bac_ask_write(&nodes[client], now, &t, &r, octets, unhex(text, octets), 0, ticket);
    }
    if (sscanf(words, "append 10:%u %s", &instance, text) >= 1) {
        return bac_ask_put(&nodes[client], now, &t, instance, -1, octets, unhex(text, octets), ticket);
    }
    if (sscanf(words, "put 10:%u %ld %s", &instance, &position, text) >= 2) {
        return bac_ask_put(&nodes[client], now, &t, instance, position, octets, unhex(text, octets), ticket);
    }
    if (sscanf(words, "get 10:%u %ld %lu", &instance, &position, &count) == 3) {
        return bac_ask_get(&nodes[client], now, &t, instance, position, count, ticket);
    }
    return BAC_BAD_REQUEST;
}

/* one line; whether anything was printed, or -1 where the line has no form */
static int step(char *line)
{
    static uint8_t octets[ROOM];
    static char text[2 * ROOM + 1];
    unsigned long number;
    unsigned a, b, type, instance, property;
    int at = 0;
    uint64_t ticket;
    if (sscanf(line, "ask %u %u %n", &a, &b, &at) == 2 && at > 0) {
        bac_status s = ask((int)a, (int)b, line + at, &ticket);
        if (s != BAC_OK) {
            printf("refused\n");
            return 1;
        }
        ask_of[a][ticket] = asks++;
        printf("asked %lu\n", (unsigned long)ask_of[a][ticket]);
        tell((int)a);
        return 1;
    }
    if (sscanf(line, "deliver %lu", &number) == 1 && number < copy_count) {
        struct copy *c = &copies[number];
        uint8_t from[6];
        link_of(c->from, from);
        if (now - c->sent > 5000) {
            return 0;
        }
        return bac_on(&nodes[c->to], now, from, c->octets, c->len) == BAC_OK ? tell(c->to) : -1;
    }
    if (sscanf(line, "tick %u", &a) == 1) {
        return bac_tick(&nodes[a], now) == BAC_OK ? tell((int)a) : -1;
    }
    if (sscanf(line, "advance %lu", &number) == 1) {
        now += number;
        return 0;
    }
    if (sscanf(line, "set %u %u:%u %u %s", &a, &type, &instance, &property, text) == 5) {
        bac_status s = bac_set_value(&nodes[a], (uint16_t)type, instance, property, octets, unhex(text, octets));
        printf(s == BAC_OK ? "changed %u\n" : "refused\n", a);
        return 1;
    }
    return -1;
}

int main(void)
{
    static char line[2 * ROOM + 100];
    for (int i = 0; i < NODES; i++) {
        bac_settings s = BAC_SETTINGS(0, 0, 0, 0, 0, 0);
        link_of(i, s.link);
        if (bac_open(&nodes[i]) != BAC_OK || bac_start_house(&nodes[i], &s) != BAC_OK) {
            return 1;
        }
    }
    if (fgets(line, sizeof line, stdin) == NULL || strcmp(line, "nodes 2\n") != 0) {
        return 2;
    }
    while (fgets(line, sizeof line, stdin) != NULL) {
        int told = step(line);
        if (told < 0) {
            fprintf(stderr, "no such event: %s", line);
            return 2;
        }
        if (told == 0) {
            printf("nothing\n");
        }
    }
    for (int i = 0; i < NODES; i++) {
        bac_close(&nodes[i]);
    }
    for (size_t i = 0; i < copy_count; i++) {
        free(copies[i].octets);
    }
    return 0;
}
