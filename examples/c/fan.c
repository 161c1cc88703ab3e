/* Lists a device and a multi-state-value, a fan, each with all that the standard requires (but see list_device), and starts a node with them; datagrams
 * go as in boiler.c. */
#include "bac.h"
#include <stdio.h>
#include <string.h>

/* What the standard requires of a device, but what the start computes, and protocol-revision (139) and property-list (371), which are yours to claim. */
static bac_status list_device(bac_node *node)
{
    static const struct { uint32_t property; unsigned kind; uint32_t number; } numbers[] = {
        { 112, 9, 0 },   /* system-status: operational */
        { 120, 2, 0 },   /* vendor-identifier: put yours here */
        { 98, 2, 1 },    /* protocol-version */
        { 62, 2, 1476 }, /* max-apdu-length-accepted */
        { 107, 9, 0 },   /* segmentation-supported: both ways */
        { 167, 2, 65 },  /* max-segments-accepted */
        { 10, 2, 2000 }, /* apdu-segment-timeout */
        { 11, 2, 3000 }, /* apdu-timeout */
        { 73, 2, 3 },    /* number-of-apdu-retries */
        { 155, 2, 1 }    /* database-revision */
    };
    static const struct { uint32_t property; const char *text; } texts[] = {
        { 121, "vendor" }, /* vendor-name */
        { 70, "model" },   /* model-name */
        { 44, "1.0" },     /* firmware-revision */
        { 12, "1.0" }      /* application-software-version */
    };
    static const uint32_t services = 1u << 6 | 1u << 7 | 1u << 12 | 1u << 15, types = 1u << 8 | 1u << 19; /* add the types of your objects */
    uint8_t octets[64];
    bac_status status = bac_add_object(node, 8, 78, (const uint8_t *)"air", 3); /* device 78 */
    for (size_t i = 0; !status && i < sizeof numbers / sizeof numbers[0]; i++) {
        status = bac_add_property(node, numbers[i].property, octets, bac_put_number(octets, numbers[i].kind, numbers[i].number), false);
    }
    for (size_t i = 0; !status && i < sizeof texts / sizeof texts[0]; i++) {
        status = bac_add_property(node, texts[i].property, octets, bac_put_text(octets, sizeof octets, texts[i].text, strlen(texts[i].text)), false);
    }
    if (!status) { status = bac_add_property(node, 97, octets, bac_put_bits(octets, services, 32), false); } /* protocol-services-supported */
    if (!status) { status = bac_add_property(node, 96, octets, bac_put_bits(octets, types, 32), false); }    /* protocol-object-types-supported */
    if (!status) { status = bac_add_property(node, 30, octets, 0, false); }                                  /* device-address-binding: empty */
    return status;
}

static bac_status list_fan(bac_node *node)
{
    static const char *const states[] = { "off", "slow", "fast" };
    static const size_t lengths[] = { 3, 4, 4 };
    uint8_t octets[64];
    size_t len = 0;
    bac_status status = bac_add_object(node, 19, 1, (const uint8_t *)"fan", 3);
    if (!status) { status = bac_add_property(node, 85, octets, bac_put_number(octets, 2, 1), true); } /* its present-value: state 1 */
    if (!status) { status = bac_limit_number(node, 2, 1, 3); }                                        /* what the network may write */
    if (!status) { status = bac_add_property(node, 74, octets, bac_put_number(octets, 2, 3), false); } /* number-of-states */
    for (size_t i = 0; i < 3; i++) { len += bac_put_text(octets + len, sizeof octets - len, states[i], lengths[i]); }
    if (!status) { status = bac_add_property(node, 110, octets, len, false); } /* state-text */
    if (!status) { status = bac_add_property(node, 111, octets, bac_put_bits(octets, 0, 4), false); }  /* status-flags: none */
    if (!status) { status = bac_add_property(node, 36, octets, bac_put_number(octets, 9, 0), false); } /* event-state: normal */
    bac_put_boolean(octets, false);
    if (!status) { status = bac_add_property(node, 81, octets, 1, false); } /* out-of-service */
    return status;
}

int main(void)
{
    bac_node node = BAC_NODE_EMPTY;
    bac_settings settings = BAC_SETTINGS(127, 0, 0, 1, 0xBA, 0xC0);
    settings.reuse_invoke_ids = true; /* clients may be other vendors' */
    bac_refused refused;
    bac_status status = bac_open(&node);
    if (!status) { status = list_device(&node); }
    if (!status) { status = list_fan(&node); }
    if (!status) { status = bac_start_described(&node, &settings); }
    printf("start: %s\n", bac_text(status));
    if (status == BAC_BAD_OBJECT && bac_problem(&node, &refused) == BAC_OK) { printf("%s\n", bac_flaw_text(refused.flaw)); }
    bac_close(&node);
    return status != BAC_OK;
}
