/* A set-point that survives a power cut: device 79 on UDP port argv[1] of 127.0.0.1 (0: any; the port is printed), for argv[3] seconds (default 60). What the
 * network writes is kept in the file argv[2] before it is answered, so a kill of this program at any moment loses nothing that was answered. */
#define _POSIX_C_SOURCE 200809L
#include "bac.h"

#include <arpa/inet.h>
#include <fcntl.h>
#include <poll.h>
#include <stdio.h>
#include <stdlib.h>
#include <string.h>
#include <sys/socket.h>
#include <time.h>
#include <unistd.h>

enum { PRESENT_VALUE = 85, ANALOG_VALUE = 2, DEVICE = 8, FILE_OBJECT = 10, MOST_CELLS = 64, MOST_OCTETS = 4096, BACK_OFF = 50 };

static uint64_t moment(void) /* milliseconds */
{
    struct timespec t;
    clock_gettime(CLOCK_BOOTTIME, &t);
    return (uint64_t)t.tv_sec * 1000 + (uint64_t)t.tv_nsec / 1000000;
}

/* ---- the flash: a file of cells, at most one at a place. A new one takes the place of the old one at once, so there is never half of a change. It is there
 * from the first start on, which tells the next one that the node ran before. */

static struct cell {
    uint64_t place;
    uint32_t len;
    uint8_t octets[MOST_OCTETS];
} cells[MOST_CELLS];
static size_t count;

static bool put_cell(uint64_t place, const uint8_t *octets, size_t len)
{
    size_t i = 0;
    while (i < count && cells[i].place != place) { i++; }
    if (i == MOST_CELLS || len > MOST_OCTETS) {
        return false;
    }
    count += i == count;
    cells[i].place = place;
    cells[i].len = (uint32_t)len;
    memcpy(cells[i].octets, octets, len);
    return true;
}

static bool write_cells(const char *path)
{
    char next[1024];
    if (snprintf(next, sizeof next, "%s.next", path) >= (int)sizeof next) {
        return false;
    }
    FILE *f = fopen(next, "wb");
    if (f == NULL) {
        return false;
    }
    bool done = true;
    for (size_t i = 0; i < count && done; i++) {
        done = fwrite(&cells[i].place, 8, 1, f) == 1 && fwrite(&cells[i].len, 4, 1, f) == 1 && fwrite(cells[i].octets, 1, cells[i].len, f) == cells[i].len;
    }
    done = done && fflush(f) == 0 && fsync(fileno(f)) == 0;
    done = fclose(f) == 0 && done && rename(next, path) == 0;
    int folder = done ? open(".", O_RDONLY) : -1; /* the path is a name in the folder that the program runs in */
    done = folder >= 0 && fsync(folder) == 0;
    if (folder >= 0) { close(folder); }
    return done;
}

/* whether there is such a file; a program that finds it and cannot read it must not start */
static bool read_cells(const char *path, bool *ran_before)
{
    FILE *f = fopen(path, "rb");
    *ran_before = f != NULL;
    if (f == NULL) {
        return true;
    }
    static uint8_t octets[MOST_OCTETS];
    uint64_t place;
    uint32_t len;
    bool right = true;
    while (right && fread(&place, 8, 1, f) == 1) {
        right = fread(&len, 4, 1, f) == 1 && len <= sizeof octets && fread(octets, 1, len, f) == len && put_cell(place, octets, len);
    }
    fclose(f);
    return right;
}

/* keeps what a property or a file has now */
static bool keep(const bac_node *node, const bac_reference *what, const char *path)
{
    static uint8_t octets[MOST_OCTETS];
    uint64_t place = 0;
    for (size_t i = 0; i < bac_cells(node, what); i++) {
        size_t len = bac_cell(node, what, i, &place, octets, sizeof octets);
        if (len > sizeof octets || !put_cell(place, octets, len)) {
            return false;
        }
    }
    return write_cells(path);
}

/* ---- the node */

static bac_status begin(bac_node *node, const bac_settings *settings, bool ran_before)
{
    static const uint8_t device[] = "controller", set_point[] = "set-point", notes[] = "notes";
    uint8_t value[5];
    uint64_t wrong = 0;
    bac_status s = bac_open(node);
    bac_put_float(value, 20.0f);
    if (s == BAC_OK) { s = bac_add_object(node, DEVICE, 79, device, sizeof device - 1); }
    if (s == BAC_OK) { s = bac_add_object(node, ANALOG_VALUE, 1, set_point, sizeof set_point - 1); }
    if (s == BAC_OK) { s = bac_add_property(node, PRESENT_VALUE, value, sizeof value, true); }
    if (s == BAC_OK) { s = bac_limit_float(node, 5.0f, 35.0f); }
    if (s == BAC_OK) { s = bac_add_object(node, FILE_OBJECT, 1, notes, sizeof notes - 1); }
    if (s == BAC_OK) { s = bac_add_file(node, value, 0, true); }
    for (size_t i = 0; i < count && s == BAC_OK; i++) {
        s = bac_add_kept(node, cells[i].place, cells[i].octets, cells[i].len);
    }
    if (s != BAC_OK || !ran_before) {
        return s == BAC_OK ? bac_start(node, settings) : s;
    }
    s = bac_start_kept(node, settings, moment(), &wrong);
    if (s == BAC_BAD_VALUE) { fprintf(stderr, "the cell at %llu does not fit\n", (unsigned long long)wrong); }
    return s;
}

static void send_all(bac_node *node, int s)
{
    uint8_t to[6], out[1514];
    for (size_t i = 0; i < bac_sends(node); i++) {
        size_t len = bac_send(node, i, to, out, sizeof out);
        struct sockaddr_in a;
        memset(&a, 0, sizeof a);
        a.sin_family = AF_INET;
        memcpy(&a.sin_addr, to, 4);
        memcpy(&a.sin_port, to + 4, 2);
        if (len <= sizeof out && sendto(s, out, len, 0, (struct sockaddr *)&a, sizeof a) < 0) {
            perror("sendto"); /* a lost datagram: the peer repeats */
        }
    }
}

/* what was written is on the disk before its answer is sent; where that fails, nothing more may be sent */
static bool receive(bac_node *node, int s, const char *path)
{
    uint8_t in[2048], from[6];
    struct sockaddr_in peer;
    socklen_t size = sizeof peer;
    bac_reference written;
    ssize_t len = recvfrom(s, in, sizeof in, 0, (struct sockaddr *)&peer, &size);
    if (len < 0) {
        return true;
    }
    memcpy(from, &peer.sin_addr, 4);
    memcpy(from + 4, &peer.sin_port, 2);
    if (bac_on(node, moment(), from, in, (size_t)len) != BAC_OK) {
        return true;
    }
    if (bac_written(node, &written)) {
        if (!keep(node, &written, path)) {
            return false;
        }
        printf("kept %u:%u\n", written.object_type, (unsigned)written.instance);
        fflush(stdout);
    }
    send_all(node, s);
    return true;
}

int main(int argc, char **argv)
{
    const char *path = argc > 2 ? argv[2] : "cells";
    bool ran_before;
    int s = socket(AF_INET, SOCK_DGRAM, 0);
    struct sockaddr_in a;
    socklen_t size = sizeof a;
    memset(&a, 0, sizeof a);
    a.sin_family = AF_INET;
    a.sin_port = htons((uint16_t)(argc > 1 ? atoi(argv[1]) : 47808));
    a.sin_addr.s_addr = htonl(INADDR_LOOPBACK);
    if (s < 0 || bind(s, (struct sockaddr *)&a, sizeof a) != 0 || getsockname(s, (struct sockaddr *)&a, &size) != 0) {
        perror("bind");
        return 1;
    }
    if (!read_cells(path, &ran_before) || !write_cells(path)) {
        fprintf(stderr, "%s: no cells, or they cannot be written\n", path);
        return 1;
    }
    bac_settings settings = BAC_SETTINGS(127, 0, 0, 1, 0, 0); /* for clients of this library; for others reuse_invoke_ids = true, as in boiler.c */
    memcpy(settings.link, &a.sin_addr, 4);
    memcpy(settings.link + 4, &a.sin_port, 2);
    bac_node node = BAC_NODE_EMPTY;
    bac_status status = begin(&node, &settings, ran_before);
    if (status != BAC_OK) {
        fprintf(stderr, "%s\n", bac_text(status));
        bac_close(&node);
        return 1;
    }
    printf("port %u, %s, %zu cells\n", ntohs(a.sin_port), ran_before ? "restarted" : "new", count);
    fflush(stdout);

    uint64_t last = moment() + 1000 * (uint64_t)(argc > 3 ? atol(argv[3]) : 60);
    uint64_t back_off = 0; /* after a tick that was refused memory, none before that moment: what is due stays due */
    bool kept = true;
    while (kept && moment() < last) {
        uint64_t due = bac_next_due(&node), now = moment();
        if (due < back_off) { due = back_off; }
        struct pollfd p = { s, POLLIN, 0 };
        if (poll(&p, 1, due <= now ? 0 : due - now > 1000 ? 1000 : (int)(due - now)) > 0) { kept = receive(&node, s, path); }
        now = moment();
        if (kept && now >= due) {
            bac_status ticked = bac_tick(&node, now);
            if (ticked == BAC_OK) { send_all(&node, s); }
            if (ticked == BAC_NO_MEMORY) { back_off = now + BACK_OFF; }
        }
    }
    if (!kept) { perror(path); }
    bac_close(&node);
    close(s);
    return kept ? 0 : 1;
}
