/* A device with one temperature, on this host's UDP port 47808: the whole program of docs/C.md. Each run starts as the very first one at its address: a device
 * that runs again has to call another start, as main says. */
#define _POSIX_C_SOURCE 200809L
#include "bac.h"
#include <arpa/inet.h>
#include <poll.h>
#include <stdio.h>
#include <string.h>
#include <sys/socket.h>
#include <time.h>

static uint64_t moment(void) /* milliseconds of a clock that never goes back */
{
    struct timespec t;
    clock_gettime(CLOCK_BOOTTIME, &t);
    return (uint64_t)t.tv_sec * 1000 + (uint64_t)t.tv_nsec / 1000000;
}

static void send_all(bac_node *node, int s) /* after each bac_on, bac_tick and bac_ask_.. */
{
    uint8_t to[6], out[1514];
    for (size_t i = 0; i < bac_sends(node); i++) {
        size_t len = bac_send(node, i, to, out, sizeof out);
        struct sockaddr_in a;
        memset(&a, 0, sizeof a);
        a.sin_family = AF_INET;
        memcpy(&a.sin_addr, to, 4);
        memcpy(&a.sin_port, to + 4, 2);
        sendto(s, out, len, 0, (struct sockaddr *)&a, sizeof a);
    }
}

int main(void)
{
    bac_node node = BAC_NODE_EMPTY;
    bac_settings settings = BAC_SETTINGS(127, 0, 0, 1, 0xBA, 0xC0); /* its address and the octets of htons(47808): the socket has them too */
    settings.reuse_invoke_ids = true;                               /* clients may be other vendors' */
    uint8_t value[5];
    bac_put_float(value, 20.0f);
    bac_status status = bac_open(&node);
    if (!status) { status = bac_add_object(&node, 8, 77, (const uint8_t *)"boiler", 6); }             /* device 77 */
    if (!status) { status = bac_add_object(&node, 0, 1, (const uint8_t *)"supply-temperature", 18); } /* analog-input 1 */
    if (!status) { status = bac_add_property(&node, 85, value, 5, false); }                           /* its present-value, read only */
    /* The first start at this address; at each later one: bac_start_described_restarted(&node, &settings, moment()). */
    if (!status) { status = bac_start_described(&node, &settings); }

    struct sockaddr_in here;
    memset(&here, 0, sizeof here);
    here.sin_family = AF_INET;
    memcpy(&here.sin_addr, settings.link, 4);
    memcpy(&here.sin_port, settings.link + 4, 2);
    int s = socket(AF_INET, SOCK_DGRAM, 0);
    if (status) {
        printf("%s\n", bac_text(status));
        return 1;
    }
    if (bind(s, (struct sockaddr *)&here, sizeof here)) {
        perror("bind");
        return 1;
    }
    uint64_t back_off = 0; /* after a tick that was refused memory, none before that moment */
    for (;;) {
        uint64_t due = bac_next_due(&node), now = moment();
        if (due < back_off) { due = back_off; }
        struct pollfd p = { s, POLLIN, 0 };
        if (poll(&p, 1, due <= now ? 0 : due - now > 1000 ? 1000 : (int)(due - now)) > 0) {
            uint8_t in[2048], from[6];
            struct sockaddr_in a;
            socklen_t size = sizeof a;
            ssize_t len = recvfrom(s, in, sizeof in, 0, (struct sockaddr *)&a, &size);
            memcpy(from, &a.sin_addr, 4);
            memcpy(from + 4, &a.sin_port, 2);
            if (len >= 0 && bac_on(&node, moment(), from, in, (size_t)len) == BAC_OK) { send_all(&node, s); }
        }
        now = moment();
        if (now >= due) {
            bac_status ticked = bac_tick(&node, now);
            if (ticked == BAC_OK) { send_all(&node, s); }
            if (ticked == BAC_NO_MEMORY) { back_off = now + 50; }
        }
        /* where a sensor moves: bac_set_value(&node, 0, 1, 85, value, 5) */
    }
}
