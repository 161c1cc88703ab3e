/* A controller on UDP port argv[1] of 127.0.0.1 (0: any; the port is printed): device 77 with a temperature that moves once a second, a setpoint that the
 * network may write, and a file. It prints each value and octet that the network writes, and ends after argv[2] datagrams (default 100) or argv[3] seconds
 * (default 60). */
#define _POSIX_C_SOURCE 200809L
#include "bac.h"

#include <arpa/inet.h>
#include <poll.h>
#include <stdio.h>
#include <stdlib.h>
#include <string.h>
#include <sys/socket.h>
#include <time.h>
#include <unistd.h>

enum { PRESENT_VALUE = 85, ANALOG_INPUT = 0, ANALOG_VALUE = 2, DEVICE = 8, FILE_OBJECT = 10 };

static uint64_t moment(void)
{
    struct timespec t;
    clock_gettime(CLOCK_BOOTTIME, &t);
    return (uint64_t)t.tv_sec * 1000 + (uint64_t)t.tv_nsec / 1000000;
}

static void link_of(uint8_t link[6], const struct sockaddr_in *a)
{
    memcpy(link, &a->sin_addr, 4);
    memcpy(link + 4, &a->sin_port, 2);
}

static void send_all(bac_node *node, int s)
{
    uint8_t to[6], out[1514];
    for (size_t i = 0; i < bac_sends(node); i++) {
        size_t len = bac_send(node, i, to, out, sizeof out);
        struct sockaddr_in a;
        memset(&a, 0, sizeof a);
        a.sin_family = AF_INET;
        memcpy(&a.sin_addr, to, 4);
        memcpy(&a.sin_port, to + 4, 2);
        if (len <= sizeof out && sendto(s, out, len, 0, (struct sockaddr *)&a, sizeof a) < 0) {
            perror("sendto"); /* a lost datagram: the peer repeats */
        }
    }
}

static void act(bac_node *node)
{
    bac_act a;
    static uint8_t octets[60000]; /* as long as a file can be */
    size_t len = bac_performed(node, &a, octets, sizeof octets);
    if (!a.done || (a.service != 7 && a.service != 15) || len > sizeof octets) {
        return;
    }
    printf("written %u:%u", a.object_type, (unsigned)a.instance);
    for (size_t i = 0; i < len; i++) {
        printf("%s%02X", i == 0 ? " " : "", octets[i]);
    }
    printf("\n");
    fflush(stdout);
}

static bac_status begin(bac_node *node, const bac_settings *settings)
{
    static const uint8_t controller[] = "controller", temperature[] = "temperature", setpoint[] = "setpoint", log[] = "log";
    uint8_t value[5];
    bac_status s = bac_open(node);
    bac_put_float(value, 20.0f);
    if (s == BAC_OK) { s = bac_add_object(node, DEVICE, 77, controller, sizeof controller - 1); }
    if (s == BAC_OK) { s = bac_add_object(node, ANALOG_INPUT, 1, temperature, sizeof temperature - 1); }
    if (s == BAC_OK) { s = bac_add_property(node, PRESENT_VALUE, value, sizeof value, false); }
    if (s == BAC_OK) { s = bac_add_object(node, ANALOG_VALUE, 1, setpoint, sizeof setpoint - 1); }
    if (s == BAC_OK) { s = bac_add_property(node, PRESENT_VALUE, value, sizeof value, true); }
    if (s == BAC_OK) { s = bac_add_object(node, FILE_OBJECT, 1, log, sizeof log - 1); }
    if (s == BAC_OK) { s = bac_add_file(node, controller, sizeof controller - 1, true); }
    return s == BAC_OK ? bac_start(node, settings) : s;
}

int main(int argc, char **argv)
{
    int s = socket(AF_INET, SOCK_DGRAM, 0);
    long left = argc > 2 ? atol(argv[2]) : 100;
    struct sockaddr_in a;
    socklen_t size = sizeof a;
    memset(&a, 0, sizeof a);
    a.sin_family = AF_INET;
    a.sin_port = htons((uint16_t)(argc > 1 ? atoi(argv[1]) : 47808));
    a.sin_addr.s_addr = htonl(INADDR_LOOPBACK);
    if (s < 0 || bind(s, (struct sockaddr *)&a, sizeof a) != 0 || getsockname(s, (struct sockaddr *)&a, &size) != 0) {
        perror("bind");
        return 1;
    }
    bac_settings settings = BAC_SETTINGS(127, 0, 0, 1, 0, 0); /* for clients of this library; for others reuse_invoke_ids = true, as in boiler.c */
    link_of(settings.link, &a);
    bac_node node = BAC_NODE_EMPTY;
    bac_status status = begin(&node, &settings);
    if (status != BAC_OK) {
        fprintf(stderr, "%s\n", bac_text(status));
        bac_close(&node);
        return 1;
    }
    printf("port %u\n", ntohs(a.sin_port));
    fflush(stdout);

    uint64_t last = moment() + 1000 * (uint64_t)(argc > 3 ? atol(argv[3]) : 60), moves = moment() + 1000;
    uint64_t back_off = 0; /* after a tick that was refused memory, none before that moment: what is due stays due */
    float degrees = 20.0f;
    while (left > 0 && moment() < last) {
        uint64_t due = bac_next_due(&node), now = moment();
        if (due < back_off) { due = back_off; }
        uint64_t until = due < moves ? due : moves;
        struct pollfd p = { s, POLLIN, 0 };
        if (poll(&p, 1, until <= now ? 0 : (int)(until - now)) > 0) {
            uint8_t in[2048], from[6];
            struct sockaddr_in peer;
            size = sizeof peer;
            ssize_t len = recvfrom(s, in, sizeof in, 0, (struct sockaddr *)&peer, &size);
            if (len >= 0) {
                left--;
                link_of(from, &peer);
                if (bac_on(&node, moment(), from, in, (size_t)len) == BAC_OK) {
                    send_all(&node, s);
                    act(&node);
                }
            }
        }
        now = moment();
        if (now >= due) {
            bac_status ticked = bac_tick(&node, now);
            if (ticked == BAC_OK) { send_all(&node, s); }
            if (ticked == BAC_NO_MEMORY) { back_off = now + 50; }
        }
        if (now >= moves) {
            uint8_t value[5];
            moves += 1000;
            degrees += 0.5f;
            bac_put_float(value, degrees);
            if (bac_set_value(&node, ANALOG_INPUT, 1, PRESENT_VALUE, value, sizeof value) != BAC_OK) {
                fprintf(stderr, "the temperature stays\n");
            }
        }
    }
    bac_close(&node);
    close(s);
    return 0;
}
