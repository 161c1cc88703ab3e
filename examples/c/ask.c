/* Asks the device at UDP port argv[1] of 127.0.0.1 for property argv[4] of object argv[2]:argv[3], or writes the octets of data argv[5] (hexadecimal) to it;
 * prints how that ended, as `bac ask` does. */
#define _POSIX_C_SOURCE 200809L
#include "bac.h"

#include <arpa/inet.h>
#include <poll.h>
#include <stdio.h>
#include <stdlib.h>
#include <string.h>
#include <sys/socket.h>
#include <time.h>
#include <unistd.h>

static uint64_t moment(void)
{
    struct timespec t;
    clock_gettime(CLOCK_BOOTTIME, &t);
    return (uint64_t)t.tv_sec * 1000 + (uint64_t)t.tv_nsec / 1000000;
}

static void send_all(bac_node *node, int s)
{
    uint8_t to[6], out[1514];
    for (size_t i = 0; i < bac_sends(node); i++) {
        size_t len = bac_send(node, i, to, out, sizeof out);
        struct sockaddr_in a;
        memset(&a, 0, sizeof a);
        a.sin_family = AF_INET;
        memcpy(&a.sin_addr, to, 4);
        memcpy(&a.sin_port, to + 4, 2);
        if (len <= sizeof out && sendto(s, out, len, 0, (struct sockaddr *)&a, sizeof a) < 0) {
            perror("sendto");
        }
    }
}

static int print_end(bac_node *node)
{
    bac_ending end;
    uint8_t octets[4096];
    size_t len = bac_end(node, 0, &end, octets, sizeof octets);
    switch (end.how) {
    case BAC_VALUES:
        printf("answered read ");
        for (size_t i = 0; i < len && len <= sizeof octets; i++) {
            printf("%02X", octets[i]);
        }
        printf("\n");
        return 0;
    case BAC_DONE:
        printf("answered written\n");
        return 0;
    case BAC_ERROR:
        printf("answered error %u:%u\n", (unsigned)end.class_, (unsigned)end.code);
        return 1;
    case BAC_REJECT:
    case BAC_ABORT: {
        char reason[64];
        bac_kind kind = end.how == BAC_REJECT ? BAC_REJECT_REASON : BAC_ABORT_REASON;
        printf("ended %s %s\n", bac_how_text(end.how), bac_name_text(kind, end.code, reason, sizeof reason));
        return 1;
    }
    default:
        printf("ended %s\n", bac_how_text(end.how));
        return 1;
    }
}

int main(int argc, char **argv)
{
    if (argc < 5) {
        fprintf(stderr, "ask PORT TYPE INSTANCE PROPERTY [HEX]\n");
        return 2;
    }
    int s = socket(AF_INET, SOCK_DGRAM, 0);
    struct sockaddr_in a;
    socklen_t size = sizeof a;
    memset(&a, 0, sizeof a);
    a.sin_family = AF_INET;
    a.sin_addr.s_addr = htonl(INADDR_LOOPBACK);
    if (s < 0 || bind(s, (struct sockaddr *)&a, sizeof a) != 0 || getsockname(s, (struct sockaddr *)&a, &size) != 0) {
        perror("bind");
        return 1;
    }
    bac_settings settings = BAC_SETTINGS(127, 0, 0, 1, 0, 0);
    memcpy(settings.link + 4, &a.sin_port, 2);
    uint16_t port = htons((uint16_t)atoi(argv[1]));
    bac_target target = { { 127, 0, 0, 1, 0, 0 }, 5, true, 7 };
    memcpy(target.link + 4, &port, 2);
    bac_reference reference = { (uint16_t)atoi(argv[2]), (uint32_t)atol(argv[3]), (uint32_t)atol(argv[4]), BAC_WHOLE };

    bac_node node = BAC_NODE_EMPTY;
    uint64_t ticket;
    bac_status status = bac_open(&node);
    if (status == BAC_OK) { status = bac_start(&node, &settings); }
    if (status == BAC_OK && argc == 5) { status = bac_ask_read(&node, moment(), &target, &reference, &ticket); }
    if (status == BAC_OK && argc > 5) {
        uint8_t octets[512];
        size_t len = 0;
        unsigned octet;
        for (const char *hex = argv[5]; len < sizeof octets && sscanf(hex, "%2x", &octet) == 1; hex += 2) {
            octets[len++] = (uint8_t)octet;
        }
        status = bac_ask_write(&node, moment(), &target, &reference, octets, len, 0, &ticket);
    }
    if (status != BAC_OK) {
        fprintf(stderr, "%s\n", bac_text(status));
        bac_close(&node);
        return 1;
    }
    send_all(&node, s);
    int exit_status = 1;
    for (;;) {
        uint64_t due = bac_next_due(&node), now = moment();
        struct pollfd p = { s, POLLIN, 0 };
        if (poll(&p, 1, due <= now ? 0 : due - now > 60000 ? 60000 : (int)(due - now)) > 0) {
            uint8_t in[2048], from[6];
            struct sockaddr_in peer;
            size = sizeof peer;
            ssize_t len = recvfrom(s, in, sizeof in, 0, (struct sockaddr *)&peer, &size);
            memcpy(from, &peer.sin_addr, 4);
            memcpy(from + 4, &peer.sin_port, 2);
            if (len < 0 || bac_on(&node, moment(), from, in, (size_t)len) != BAC_OK) {
                continue;
            }
        } else if (bac_tick(&node, moment()) != BAC_OK) {
            poll(NULL, 0, 50); /* no memory: what is due stays due, and would be tried again at once */
            continue;
        }
        send_all(&node, s);
        if (bac_ends(&node) > 0) {
            exit_status = print_end(&node);
            break;
        }
    }
    bac_close(&node);
    close(s);
    return exit_status;
}
