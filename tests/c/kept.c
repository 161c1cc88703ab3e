/* docs/C.md, "Through a power cut": the cells of what was written are kept before its answer goes out, and the next start has them. Each allocation of the run is
 * then refused in turn. */
#include "rows.h"

enum { ANALOG_VALUE = 2, DEVICE = 8, FILE_OBJECT = 10, PRESENT_VALUE = 85, VENDOR = 512, MOST = 128 };

/* the places of an object's properties, and of a file's parts: 0 how many octets it has in parts, 1 the first part */
#define PLACE_OF(type, instance, number) ((((uint64_t)(type) << 22 | (instance)) << 22) | (number))
#define PART_OF(instance, part) (((uint64_t)1 << 54) + PLACE_OF(FILE_OBJECT, instance, part))

static const uint8_t REAL_10[] = { 0x44, 0x41, 0x20, 0, 0 }, REAL_20[] = { 0x44, 0x41, 0xA0, 0, 0 }, ONE[] = { 0x21, 1 }, TWO[] = { 0x21, 2 };
static const uint8_t PEER[6] = { 127, 0, 0, 1, 0xBA, 0xC2 };

/* what survives: at most one cell at a place */
static struct cell {
    uint64_t place;
    size_t len;
    uint8_t octets[4096];
} flash[MOST];
static size_t cells;

static uint8_t out[1514], content[60000];

static struct cell *cell_at(uint64_t place)
{
    size_t i = 0;
    while (i < cells && flash[i].place != place) { i++; }
    return i < MOST ? &flash[i] : NULL;
}

/* keeps so many cells of a property or of a file */
static int keeps(const bac_node *node, const bac_reference *what, size_t wanted)
{
    uint64_t place = 7;
    uint8_t octets[4096];
    HOLDS(bac_cells(node, what) == wanted);
    HOLDS(bac_cell(node, what, wanted, &place, octets, sizeof octets) == 0 && place == 7);
    for (size_t i = 0; i < wanted; i++) {
        size_t len = bac_cell(node, what, i, &place, octets, 0);
        HOLDS(bac_cell(node, what, i, &place, octets, sizeof octets) == len && len <= sizeof octets && place >> 55 == 0);
        struct cell *cell = cell_at(place);
        HOLDS(cell != NULL);
        cells += cell == &flash[cells];
        cell->place = place;
        cell->len = len;
        memcpy(cell->octets, octets, len);
    }
    return 0;
}

/* a device with a set-point, a vendor's property and a file */
static bac_status lists(bac_node *node, bool writable)
{
    bac_status s = bac_open(node);
    if (s == BAC_OK) { s = bac_add_object(node, DEVICE, 1, (const uint8_t *)"device", 6); }
    if (s == BAC_OK) { s = bac_add_object(node, ANALOG_VALUE, 1, (const uint8_t *)"set", 3); }
    if (s == BAC_OK) { s = bac_add_property(node, PRESENT_VALUE, REAL_20, 5, writable); }
    if (s == BAC_OK) { s = bac_limit(node, REAL_20, 5, REAL_20, 5); }
    if (s == BAC_OK) { s = bac_add_property(node, VENDOR, ONE, 2, writable); }
    if (s == BAC_OK) { s = bac_add_object(node, FILE_OBJECT, 1, (const uint8_t *)"log", 3); }
    if (s == BAC_OK) { s = bac_add_file(node, content, 10, writable); }
    if (s != BAC_OK) { bac_close(node); }
    return s;
}

/* lists what was kept, the last cell first */
static bac_status lists_kept(bac_node *node)
{
    bac_status s = BAC_OK;
    for (size_t i = cells; i-- > 0 && s == BAC_OK;) {
        s = bac_add_kept(node, flash[i].place, flash[i].octets, flash[i].len);
    }
    return s;
}

static bac_status starts(bac_node *node, const bac_settings *s, bool described, uint64_t *place)
{
    return described ? bac_start_described_kept(node, s, 1000, place) : bac_start_kept(node, s, 1000, place);
}

/* before it is open, and once it is started */
static int other_rows(bac_node *node)
{
    bac_settings s = BAC_SETTINGS(127, 0, 0, 1, 0xBA, 0xC0), bad = s;
    bac_reference what = { ANALOG_VALUE, 1, PRESENT_VALUE, 3 };
    uint64_t place = 7;
    bad.window = 0;
    HOLDS(!bac_written(node, &what) && what.index == 3);
    if (keeps(node, &what, 0)) { return 1; }
    CALL(BAC_NOT_OPEN, bac_add_kept(node, 0, ONE, 1));
    CALL(BAC_NOT_OPEN, bac_start_kept(node, &s, 0, &place));
    CALL(BAC_NOT_OPEN, bac_start_described_kept(node, &s, 0, &place));
    CALL(BAC_OK, lists(node, true));
    HOLDS(!bac_written(node, &what));
    if (keeps(node, &what, 0)) { return 1; }
    CALL(BAC_BAD_OBJECT, bac_add_kept(node, (uint64_t)1 << 55, ONE, 1));
    CALL(BAC_BAD_OBJECT, bac_add_kept(node, PART_OF(1, 256), ONE, 1));
    CALL(BAC_BAD_OBJECT, bac_add_kept(node, UINT64_MAX, ONE, 1));
    CALL(BAC_OK, bac_add_kept(node, PART_OF(2, 255), ONE, 0));
    CALL(BAC_BAD_SETTINGS, bac_start_kept(node, &bad, 0, &place));
    CALL(BAC_BAD_SETTINGS, bac_start_described_kept(node, &bad, 0, &place));
    CALL(BAC_OK, bac_add_object(node, DEVICE, 1, (const uint8_t *)"other", 5));
    CALL(BAC_DUPLICATE, bac_start_kept(node, &s, 0, &place));
    CALL(BAC_BAD_OBJECT, bac_start_described_kept(node, &s, 0, &place));
    bac_close(node);
    CALL(BAC_OK, lists(node, true));
    CALL(BAC_OK, bac_add_property(node, 4194304, ONE, 2, true));
    CALL(BAC_BAD_OBJECT, bac_start_kept(node, &s, 0, &place));
    bac_close(node);
    CALL(BAC_OK, lists(node, true));
    CALL(BAC_OK, bac_add_kept(node, PLACE_OF(ANALOG_VALUE, 1, PRESENT_VALUE), REAL_10, 5));
    CALL(BAC_OK, bac_start_restarted(node, &s, 0)); /* which leaves cells out of account */
    CALL(BAC_ALREADY_STARTED, bac_add_kept(node, 0, ONE, 1));
    CALL(BAC_ALREADY_STARTED, bac_start_kept(node, &s, 0, &place));
    CALL(BAC_ALREADY_STARTED, bac_start_described_kept(node, &s, 0, &place));
    what.index = BAC_WHOLE;
    size_t len = 0;
    CALL(BAC_OK, bac_get_value(node, &what, out, sizeof out, &len));
    HOLDS(place == 7 && len == 5 && memcmp(out, REAL_20, 5) == 0);
    bac_close(node);
    return 0;
}

/* a request, on the node's first life: performed */
static int performs(bac_node *node, const uint8_t *request, size_t len, bac_reference *written, bool wrote)
{
    bac_reference none = { 9, 9, 9, 9 };
    *written = none;
    CALL(BAC_OK, bac_on(node, 1, PEER, request, len));
    HOLDS(bac_sends(node) == 1 && bac_written(node, written) == wrote && (wrote || written->index == 9));
    return 0;
}

/* the first life: what is written is kept */
static int first_rows(bac_node *node, bool described)
{
    static const uint8_t sets[] = { 0x81, 0x0A, 0, 24, 1, 4, 0, 5, 1, 15, 0x0C, 0, 0x80, 0, 1, 0x19, 85, 0x3E, 0x44, 0x41, 0xA0, 0, 0, 0x3F };
    static const uint8_t refused[] = { 0x81, 0x0A, 0, 24, 1, 4, 0, 5, 2, 15, 0x0C, 0, 0x80, 0, 1, 0x19, 85, 0x3E, 0x44, 0x41, 0x20, 0, 0, 0x3F };
    static const uint8_t reads[] = { 0x81, 0x0A, 0, 0x11, 1, 4, 0, 5, 3, 0x0C, 0x0C, 0, 0x80, 0, 1, 0x19, 0x55 };
    static const uint8_t appends[] = { 0x81, 0x0A, 0, 23, 1, 4, 0, 5, 4, 7, 0xC4, 2, 0x80, 0, 1, 0x0E, 0x31, 0xFF, 0x63, 1, 2, 3, 0x0F };
    bac_settings s = BAC_SETTINGS(127, 0, 0, 1, 0xBA, 0xC0);
    bac_reference written, set = { ANALOG_VALUE, 1, PRESENT_VALUE, 0 }, vendor = { ANALOG_VALUE, 1, VENDOR, 0 }, log = { FILE_OBJECT, 1, BAC_WHOLE, 0 };
    CALL(BAC_OK, lists(node, true));
    CALL(BAC_OK, described ? bac_start_described(node, &s) : bac_start(node, &s));
    if (performs(node, sets, sizeof sets, &written, true)) { return 1; }
    HOLDS(written.object_type == ANALOG_VALUE && written.instance == 1 && written.property == PRESENT_VALUE && written.index == BAC_WHOLE);
    if (keeps(node, &written, 1)) { return 1; }
    HOLDS(cells == 1 && flash[0].place == PLACE_OF(ANALOG_VALUE, 1, PRESENT_VALUE) && flash[0].len == 5 && memcmp(flash[0].octets, REAL_20, 5) == 0);
    if (performs(node, refused, sizeof refused, &written, false) || performs(node, reads, sizeof reads, &written, false)) { return 1; }
    if (performs(node, appends, sizeof appends, &written, true)) { return 1; }
    HOLDS(written.object_type == FILE_OBJECT && written.instance == 1 && written.property == BAC_WHOLE);
    if (keeps(node, &written, 2)) { return 1; }
    HOLDS(cells == 3 && flash[1].place == PART_OF(1, 1) && flash[1].len == 13 && flash[1].octets[12] == 3);
    HOLDS(flash[2].place == PART_OF(1, 0) && flash[2].len == 1 && flash[2].octets[0] == 1);
    /* and what the program itself sets */
    CALL(BAC_OK, bac_set_value(node, ANALOG_VALUE, 1, PRESENT_VALUE, REAL_10, 5));
    CALL(BAC_OK, bac_set_value(node, ANALOG_VALUE, 1, VENDOR, TWO, 2));
    if (keeps(node, &set, 1) || keeps(node, &vendor, 1)) { return 1; }
    HOLDS(cells == 4 && flash[3].place == PLACE_OF(ANALOG_VALUE, 1, VENDOR) && flash[3].len == 2);
    CALL(BAC_OK, bac_set_file(node, 1, content, 60000));
    if (keeps(node, &log, 60)) { return 1; }
    CALL(BAC_OK, bac_set_file(node, 1, content + 1, 2048)); /* its other parts stay behind */
    if (keeps(node, &log, 3)) { return 1; }
    HOLDS(cells == 2 + 60 && cell_at(PART_OF(1, 0))->octets[0] == 2 && cell_at(PART_OF(1, 59))->len == 608);
    /* nothing of what the network cannot write, is not there, or has no such number */
    bac_reference none[] = { { DEVICE, 1, 77, 0 }, { ANALOG_VALUE, 2, PRESENT_VALUE, 0 }, { FILE_OBJECT, 1, 42, 0 }, { ANALOG_VALUE, 1, BAC_WHOLE, 0 },
                             { 1024, 1, PRESENT_VALUE, 0 }, { FILE_OBJECT, 4194304, BAC_WHOLE, 0 } };
    for (size_t i = 0; i < sizeof none / sizeof none[0]; i++) {
        if (keeps(node, &none[i], 0)) { return 1; }
    }
    bac_close(node); /* the power is cut */
    return 0;
}

/* the next life has it, and turns requests away at first */
static int next_rows(bac_node *node, bool described)
{
    static const uint8_t reads[] = { 0x81, 0x0A, 0, 0x11, 1, 4, 0, 5, 3, 0x0C, 0x0C, 0, 0x80, 0, 1, 0x19, 0x55 };
    bac_settings s = BAC_SETTINGS(127, 0, 0, 1, 0xBA, 0xC0);
    bac_reference set = { ANALOG_VALUE, 1, PRESENT_VALUE, BAC_WHOLE }, vendor = { ANALOG_VALUE, 1, VENDOR, BAC_WHOLE };
    uint64_t place = 7;
    size_t len = 0;
    CALL(BAC_OK, lists(node, true));
    CALL(BAC_OK, bac_add_kept(node, PLACE_OF(ANALOG_VALUE, 1, VENDOR), REAL_10, 5)); /* a later one takes its place */
    CALL(BAC_OK, bac_add_kept(node, PLACE_OF(ANALOG_VALUE, 9, PRESENT_VALUE), ONE, 2)); /* of an object that is gone */
    CALL(BAC_OK, bac_add_kept(node, PART_OF(2, 0), content + 3, 1));                    /* of a file that is gone, without its parts */
    CALL(BAC_OK, bac_add_kept(node, PART_OF(3, 0), ONE, 2));                            /* and no number of parts */
    CALL(BAC_OK, lists_kept(node));
    CALL(BAC_OK, starts(node, &s, described, &place));
    CALL(BAC_OK, bac_get_value(node, &set, out, sizeof out, &len));
    HOLDS(place == 7 && len == 5 && memcmp(out, REAL_10, 5) == 0);
    CALL(BAC_OK, bac_get_value(node, &vendor, out, sizeof out, &len));
    HOLDS(len == 2 && memcmp(out, TWO, 2) == 0);
    static uint8_t file[60000];
    CALL(BAC_OK, bac_get_file(node, 1, file, sizeof file, &len));
    HOLDS(len == 2048 && memcmp(file, content + 1, len) == 0);
    CALL(BAC_OK, bac_on(node, 65999, PEER, reads, sizeof reads));
    uint8_t to[6];
    HOLDS(bac_send(node, 0, to, out, sizeof out) == 9 && out[6] == 0x71 && out[8] == 0);
    CALL(BAC_OK, bac_on(node, 131000, PEER, reads, sizeof reads));
    HOLDS(bac_send(node, 0, to, out, sizeof out) == 23 && memcmp(out + 17, REAL_10, 5) == 0);
    bac_close(node);
    return 0;
}

/* cells that no longer fit: where nothing may be written any more they have no effect, and where something else is there the start names their place */
static int unfit_rows(bac_node *node, bool described)
{
    bac_settings s = BAC_SETTINGS(127, 0, 0, 1, 0xBA, 0xC0);
    bac_reference set = { ANALOG_VALUE, 1, PRESENT_VALUE, BAC_WHOLE };
    uint64_t place = 7, value = PLACE_OF(ANALOG_VALUE, 1, PRESENT_VALUE);
    size_t len = 0;
    CALL(BAC_OK, lists(node, false));
    CALL(BAC_OK, lists_kept(node));
    CALL(BAC_OK, bac_add_kept(node, value, ONE, 2));
    CALL(BAC_OK, bac_add_kept(node, PART_OF(1, 0), content + 60, 1)); /* 60 parts, of which the last is missing */
    CALL(BAC_OK, starts(node, &s, described, &place));
    CALL(BAC_OK, bac_get_value(node, &set, out, sizeof out, &len));
    HOLDS(place == 7 && len == 5 && memcmp(out, REAL_20, 5) == 0);
    bac_close(node);
    CALL(BAC_OK, lists(node, true));
    CALL(BAC_OK, lists_kept(node));
    CALL(BAC_OK, bac_add_kept(node, value, ONE, 2));
    CALL(BAC_BAD_VALUE, starts(node, &s, described, &place));
    HOLDS(place == value && bac_next_due(node) == UINT64_MAX);
    CALL(BAC_OK, bac_add_kept(node, value, REAL_10, 5)); /* all is still listed */
    CALL(BAC_OK, bac_add_kept(node, PART_OF(1, 0), ONE, 2));
    CALL(BAC_BAD_VALUE, starts(node, &s, described, &place));
    HOLDS(place == PART_OF(1, 0));
    CALL(BAC_OK, bac_add_kept(node, PART_OF(1, 0), content + 60, 1)); /* 60 parts, of which the last is missing */
    CALL(BAC_BAD_VALUE, starts(node, &s, described, &place));
    HOLDS(place == PART_OF(1, 0));
    CALL(BAC_OK, bac_add_kept(node, PART_OF(1, 0), content + 59, 1));
    CALL(BAC_OK, bac_add_kept(node, PART_OF(1, 59), content, 609)); /* 60,001 octets */
    CALL(BAC_BAD_VALUE, starts(node, &s, described, &place));
    HOLDS(place == PART_OF(1, 0));
    CALL(BAC_OK, bac_add_kept(node, PART_OF(1, 59), content, 608));
    static const size_t lengths[] = { 1025, 1023, 0 }; /* of a part before the last */
    for (size_t i = 0; i < 3; i++) {
        CALL(BAC_OK, bac_add_kept(node, PART_OF(1, 1), content, lengths[i]));
        CALL(BAC_BAD_VALUE, starts(node, &s, described, &place));
        HOLDS(place == PART_OF(1, 0));
    }
    CALL(BAC_OK, bac_add_kept(node, PART_OF(1, 0), content + 1, 1)); /* of the last one */
    for (size_t i = 0; i < 3; i += 2) {
        CALL(BAC_OK, bac_add_kept(node, PART_OF(1, 1), content, lengths[i]));
        CALL(BAC_BAD_VALUE, starts(node, &s, described, &place));
        HOLDS(place == PART_OF(1, 0));
    }
    CALL(BAC_OK, bac_add_kept(node, PART_OF(1, 1), content + 1, 1024));
    CALL(BAC_OK, bac_add_kept(node, PART_OF(1, 0), content + 59, 1));
    CALL(BAC_OK, starts(node, &s, described, &place));
    bac_close(node);
    return 0;
}

static int rows(bac_node *node)
{
    for (size_t i = 0; i < sizeof content; i++) { content[i] = (uint8_t)i; }
    for (unsigned described = 0; described < 2; described++) {
        cells = 0;
        if (other_rows(node) || first_rows(node, described != 0) || next_rows(node, described != 0) || unfit_rows(node, described != 0)) { return 1; }
    }
    return 0;
}

static int run(void)
{
    bac_node node = BAC_NODE_EMPTY;
    int failed = rows(&node);
    bac_close(&node);
    return failed;
}

int main(void)
{
    return refuse_each(run);
}
