/* Every call of bac.h but those of kept.c, two nodes in one process, with no socket. Each allocation of the run is then refused in turn: the call that met it
 * answers BAC_NO_MEMORY, does it when it is called again, and all that follows is the same. */
#include "rows.h"

static const uint8_t HERE[6] = { 127, 0, 0, 1, 0xBA, 0xC0 }, THERE[6] = { 127, 0, 0, 1, 0xBA, 0xC2 };
static const uint8_t QUESTION[] = { 0x81, 0x0A, 0, 0x11, 1, 4, 0, 5, 1, 0x0C, 0x0C, 0, 0, 0, 5, 0x19, 0x55 };
static const uint8_t FLOW[] = { 0x81, 0x0A, 0, 0x17, 1, 0, 0x30, 1, 0x0C, 0x0C, 0, 0, 0, 5, 0x19, 0x55, 0x3E, 0x44, 0x42, 0x90, 0x99, 0x9A, 0x3F };
static const uint8_t REAL_10[] = { 0x44, 0x41, 0x20, 0, 0 }, REAL_20[] = { 0x44, 0x41, 0xA0, 0, 0 };

/* the Abort of a request that finds no slot, or a node that restarted */
static const uint8_t ABORTED[] = { 0x81, 0x0A, 0, 0x09, 1, 0, 0x71, 1, 0 };

enum { SEGMENTED = 6000 }; /* octets of a file: five segments */

static size_t n;
static uint8_t to[6], out[1514], many[70000];

/* nothing is open: no harm, and a status */
static int closed_rows(bac_node *node)
{
    unsigned port = 47808; /* known at run time: also in C++ */
    bac_settings s = BAC_SETTINGS(127, 0, 0, 1, port >> 8, port & 255);
    bac_target t = { { 127, 0, 0, 1, 0xBA, 0xC2 }, 5, true, 7 };
    bac_reference r = { 0, 5, 85, BAC_WHOLE };
    bac_ending e;
    bac_act a;
    bac_refused wrong = { 7, 7, BAC_FLAW_NONE };
    uint64_t ticket = 0;
    bac_close(NULL);
    CALL(BAC_NOT_OPEN, bac_add_object(node, 8, 1, out, 1));
    CALL(BAC_NOT_OPEN, bac_add_property(node, 85, REAL_10, 5, true));
    CALL(BAC_NOT_OPEN, bac_add_file(node, out, 1, true));
    CALL(BAC_NOT_OPEN, bac_limit(node, REAL_10, 5, REAL_20, 5));
    CALL(BAC_NOT_OPEN, bac_limit_number(node, 2, 1, 9));
    CALL(BAC_NOT_OPEN, bac_allow(node, REAL_10, 5));
    CALL(BAC_NOT_OPEN, bac_problem(node, &wrong));
    CALL(BAC_NOT_OPEN, bac_start_problem(node, &wrong));
    CALL(BAC_NOT_OPEN, bac_start_described(node, &s));
    CALL(BAC_NOT_OPEN, bac_start_described_restarted(node, &s, 0));
    CALL(BAC_NOT_OPEN, bac_start(node, &s));
    CALL(BAC_NOT_OPEN, bac_start_restarted(node, &s, 0));
    CALL(BAC_NOT_OPEN, bac_start_house(node, &s));
    CALL(BAC_NOT_OPEN, bac_on(node, 0, THERE, QUESTION, sizeof QUESTION));
    CALL(BAC_NOT_OPEN, bac_tick(node, 0));
    CALL(BAC_NOT_OPEN, bac_ask_read(node, 0, &t, &r, &ticket));
    CALL(BAC_NOT_OPEN, bac_ask_write(node, 0, &t, &r, REAL_10, 5, 0, &ticket));
    CALL(BAC_NOT_OPEN, bac_ask_put(node, 0, &t, 1, -1, out, 1, &ticket));
    CALL(BAC_NOT_OPEN, bac_ask_get(node, 0, &t, 1, 0, 1, &ticket));
    CALL(BAC_NOT_OPEN, bac_set_value(node, 0, 5, 85, REAL_10, 5));
    CALL(BAC_NOT_OPEN, bac_set_file(node, 1, out, 1));
    CALL(BAC_NOT_OPEN, bac_get_value(node, &r, out, sizeof out, &n));
    CALL(BAC_NOT_OPEN, bac_get_file(node, 1, out, sizeof out, &n));
    CALL(BAC_NOT_OPEN, bac_append_file(node, 1, out, 1, many, sizeof many));
    CALL(BAC_NOT_OPEN, bac_ask_append(node, 0, &t, 1, out, 1, &ticket));
    HOLDS(wrong.object == 7 && wrong.property == 7);
    HOLDS(bac_next_due(node) == UINT64_MAX && bac_sends(node) == 0 && bac_ends(node) == 0 && bac_cause(node) == 0);
    HOLDS(bac_send(node, 0, to, out, sizeof out) == 0 && bac_end(node, 0, &e, out, sizeof out) == 0);
    HOLDS(bac_performed(node, &a, out, sizeof out) == 0 && a.service == 0);
    HOLDS(bac_held(node, 0) == 0 && bac_live(node, 0) == 0);
    bac_close(node);
    return 0;
}

/* a house answers */
static int house_rows(bac_node *node)
{
    bac_settings s = BAC_SETTINGS(127, 0, 0, 1, 0xBA, 0xC0), bad = s;
    bac_act a;
    bad.window = 65;
    CALL(BAC_OK, bac_open(node));
    CALL(BAC_ALREADY_OPEN, bac_open(node));
    CALL(BAC_NOT_STARTED, bac_on(node, 0, THERE, QUESTION, sizeof QUESTION));
    CALL(BAC_NOT_STARTED, bac_set_file(node, 4194304, out, 1));
    CALL(BAC_NOT_STARTED, bac_get_file(node, 4194304, out, sizeof out, &n));
    CALL(BAC_BAD_SETTINGS, bac_start_house(node, &bad));
    CALL(BAC_OK, bac_start_house(node, &s));
    CALL(BAC_ALREADY_STARTED, bac_start_house(node, &s));
    CALL(BAC_ALREADY_STARTED, bac_add_object(node, 8, 1, out, 1));
    CALL(BAC_OK, bac_on(node, 10, THERE, QUESTION, sizeof QUESTION));
    HOLDS(bac_sends(node) == 1 && bac_send(node, 1, to, out, sizeof out) == 0);
    HOLDS(bac_send(node, 0, to, out, 22) == sizeof FLOW);
    n = bac_send(node, 0, to, out, sizeof out);
    HOLDS(n == sizeof FLOW && memcmp(out, FLOW, n) == 0 && memcmp(to, THERE, 6) == 0);
    HOLDS(bac_performed(node, &a, out, sizeof out) == 0 && a.service == 12 && a.done && a.object_type == 0 && a.instance == 5);
    HOLDS(a.property == 85 && a.index == BAC_WHOLE && memcmp(a.link, THERE, 6) == 0);
    HOLDS(bac_live(node, 10) == 1 && bac_live(node, 65011) == 0 && bac_held(node, 10) == 0);
    CALL(BAC_OK, bac_on(node, 11, THERE, QUESTION, 3));
    HOLDS(bac_cause(node) == 1 && bac_sends(node) == 0);
    CALL(BAC_OK, bac_on(node, 12, HERE, QUESTION, sizeof QUESTION));
    HOLDS(bac_cause(node) == 6);
    CALL(BAC_CLOCK_BACK, bac_tick(node, 11));
    HOLDS(bac_cause(node) == 6);
    CALL(BAC_OK, bac_tick(node, 12));
    HOLDS(bac_cause(node) == 0);
    return 0;
}

/* a node with objects of its own */
static int own_rows(bac_node *node)
{
    bac_settings s = BAC_SETTINGS(127, 0, 0, 1, 0xBA, 0xC2);
    bac_reference r = { 2, 1, 85, BAC_WHOLE };
    static const uint8_t name[] = { 's', 'e', 't' }, latin[] = { 0xE4 };
    CALL(BAC_OK, bac_open(node));
    CALL(BAC_BAD_OBJECT, bac_add_property(node, 85, REAL_10, 5, true));
    CALL(BAC_BAD_OBJECT, bac_add_object(node, 1024, 1, name, 3));
    CALL(BAC_BAD_OBJECT, bac_add_object(node, 2, 1, latin, 1));
    CALL(BAC_OK, bac_add_object(node, 2, 1, name, 3));
    CALL(BAC_BAD_OBJECT, bac_add_property(node, 85, REAL_10, 4, true));
    CALL(BAC_OK, bac_add_property(node, 85, REAL_10, 5, true));
    CALL(BAC_OK, bac_add_object(node, 10, 1, name, 3));
    CALL(BAC_BAD_OBJECT, bac_start(node, &s)); /* a file without octets */
    CALL(BAC_OK, bac_add_file(node, name, 3, true));
    CALL(BAC_OK, bac_start(node, &s));
    CALL(BAC_ALREADY_STARTED, bac_start_restarted(node, &s, 0));
    CALL(BAC_NO_SUCH_OBJECT, bac_set_value(node, 2, 9, 85, REAL_10, 5));
    CALL(BAC_NO_SUCH_PROPERTY, bac_set_value(node, 2, 1, 28, REAL_10, 5));
    CALL(BAC_BAD_VALUE, bac_set_value(node, 2, 1, 85, name, 3));
    CALL(BAC_BAD_REQUEST, bac_set_value(node, 1024, 1, 85, REAL_10, 5));
    CALL(BAC_OK, bac_set_value(node, 2, 1, 85, REAL_20, 5));
    CALL(BAC_OK, bac_get_value(node, &r, out, sizeof out, &n));
    HOLDS(n == 5 && memcmp(out, REAL_20, 5) == 0);
    CALL(BAC_OK, bac_get_value(node, &r, out, 4, &n));
    HOLDS(n == 5);
    r.property = 28;
    CALL(BAC_NO_SUCH_PROPERTY, bac_get_value(node, &r, out, sizeof out, &n));
    r.instance = 9;
    CALL(BAC_NO_SUCH_OBJECT, bac_get_value(node, &r, out, sizeof out, &n));
    r.object_type = 1024;
    CALL(BAC_BAD_REQUEST, bac_get_value(node, &r, out, sizeof out, &n));
    CALL(BAC_NO_SUCH_OBJECT, bac_set_file(node, 2, name, 3));
    CALL(BAC_BAD_REQUEST, bac_set_file(node, 4194304, name, 3));
    CALL(BAC_TOO_LONG, bac_set_file(node, 1, many, 60001));
    CALL(BAC_OK, bac_set_file(node, 1, name, 0));
    CALL(BAC_OK, bac_get_file(node, 1, out, sizeof out, &n));
    HOLDS(n == 0);
    CALL(BAC_OK, bac_set_file(node, 1, name, 2));
    out[0] = out[1] = 'x';
    CALL(BAC_OK, bac_get_file(node, 1, out, 1, &n));
    HOLDS(n == 2 && out[0] == 'x');
    CALL(BAC_OK, bac_get_file(node, 1, out, sizeof out, &n));
    HOLDS(n == 2 && memcmp(out, "se", 2) == 0);
    CALL(BAC_OK, bac_append_file(node, 1, name + 2, 1, out, 3));
    CALL(BAC_TOO_LONG, bac_append_file(node, 1, name, 1, out, 3));
    CALL(BAC_OK, bac_get_file(node, 1, out, sizeof out, &n));
    HOLDS(n == 3 && memcmp(out, name, 3) == 0);
    CALL(BAC_OK, bac_set_file(node, 1, name, 2));
    n = 99;
    CALL(BAC_NO_SUCH_OBJECT, bac_get_file(node, 2, out, sizeof out, &n));
    CALL(BAC_BAD_REQUEST, bac_get_file(node, 4194304, out, sizeof out, &n));
    HOLDS(n == 99);
    return 0;
}

/* what no node can have, of names and numbers, at their limits */
static int edge_rows(bac_node *node)
{
    static const uint8_t active[] = { 0x91, 1 }, third[] = { 0x91, 2 };
    bac_settings s = BAC_SETTINGS(127, 0, 0, 1, 0xBA, 0xC0);
    for (size_t name_len = 4091; name_len <= 4092; name_len++) {
        CALL(BAC_OK, bac_open(node));
        CALL(BAC_OK, bac_add_object(node, 5, 1, many, name_len));
        CALL(BAC_OK, bac_add_property(node, 85, active, 2, true));
        CALL(name_len == 4091 ? BAC_OK : BAC_BAD_OBJECT, bac_start(node, &s));
        if (name_len == 4091) {
            CALL(BAC_BAD_VALUE, bac_set_value(node, 5, 1, 85, third, 2));
            CALL(BAC_NO_SUCH_PROPERTY, bac_set_value(node, 5, 1, 79, active, 2));
            CALL(BAC_OK, bac_set_value(node, 5, 1, 85, active, 2));
        }
        bac_close(node);
    }
    for (uint32_t number = 511; number <= 512; number++) {
        CALL(BAC_OK, bac_open(node));
        CALL(BAC_OK, bac_add_object(node, 8, 1, many, 1));
        CALL(BAC_OK, bac_add_property(node, number, many, 0, true));
        CALL(number == 512 ? BAC_OK : BAC_BAD_OBJECT, bac_start(node, &s));
        bac_close(node);
    }
    return 0;
}

/* what is wrong with the objects that are listed, as it is told, is this */
static int tells(bac_node *node, uint64_t object, uint32_t property, bac_flaw flaw)
{
    bac_settings s = BAC_SETTINGS(127, 0, 0, 1, 0xBA, 0xC0);
    bac_refused wrong = { 7, 7, BAC_FLAW_NONE };
    CALL(BAC_OK, bac_problem(node, &wrong));
    HOLDS(wrong.object == object && wrong.property == property && wrong.flaw == flaw);
    if (flaw != BAC_FLAW_NONE) { CALL(BAC_BAD_OBJECT, bac_start_described(node, &s)); }
    return 0;
}

/* objects of any type and property: each flaw, and a device with a state, units and its object-list */
static int described_rows(bac_node *node)
{
    static const uint8_t two[] = { 0x21, 2 }, zero[] = { 0x21, 0 }, percent[] = { 0x91, 98 }, no[] = { 0x10 };
    static const uint8_t list[] = { 0xC4, 2, 0, 0, 1, 0xC4, 3, 0x40, 0, 1 };
    bac_settings s = BAC_SETTINGS(127, 0, 0, 1, 0xBA, 0xC0), old = s, grown = s;
    bac_reference r = { 8, 1, 76, BAC_WHOLE };
    bac_refused wrong;
    old.size = sizeof s - 8;
    CALL(BAC_OK, bac_open(node));
    if (tells(node, BAC_NO_OBJECT, BAC_WHOLE, BAC_FLAW_NO_DEVICE)) { return 1; }
    CALL(BAC_OK, bac_add_object(node, 13, 1, (const uint8_t *)"fan", 3));
    CALL(BAC_OK, bac_add_property(node, 85, two, 2, true));
    CALL(BAC_OK, bac_add_property(node, 117, percent, 2, false));
    CALL(BAC_OK, bac_add_property(node, 81, no, 1, true));
    CALL(BAC_BAD_OBJECT, bac_start(node, &s));
    CALL(BAC_OK, bac_add_object(node, 8, 1, (const uint8_t *)"device", 6));
    if (tells(node, BAC_NO_OBJECT, BAC_WHOLE, BAC_FLAW_NONE)) { return 1; }
    CALL(BAC_BAD_SETTINGS, bac_start_described(node, &old));
    for (unsigned i = 0; i < sizeof s.later; i++) {
        grown.later[i] = 1;
        CALL(BAC_BAD_SETTINGS, bac_start_described(node, &grown));
        grown.later[i] = 0;
    }
    CALL(BAC_OK, bac_start_described(node, &s));
    CALL(BAC_ALREADY_STARTED, bac_start_described(node, &s));
    CALL(BAC_ALREADY_STARTED, bac_limit(node, two, 2, two, 2));
    CALL(BAC_ALREADY_STARTED, bac_problem(node, &wrong));
    CALL(BAC_OK, bac_get_value(node, &r, out, sizeof out, &n));
    HOLDS(n == sizeof list && memcmp(out, list, n) == 0);
    r.index = 0;
    CALL(BAC_OK, bac_get_value(node, &r, out, sizeof out, &n));
    HOLDS(n == sizeof two && memcmp(out, two, n) == 0);
    r.instance = 4194303; /* the device, whatever its instance */
    r.index = 2;
    CALL(BAC_OK, bac_get_value(node, &r, out, sizeof out, &n));
    HOLDS(n == 5 && memcmp(out, list + 5, n) == 0);
    r.index = 3;
    CALL(BAC_NO_SUCH_PROPERTY, bac_get_value(node, &r, out, sizeof out, &n));
    CALL(BAC_BAD_VALUE, bac_set_value(node, 13, 1, 85, zero, 2));
    CALL(BAC_OK, bac_set_value(node, 13, 1, 85, two, 2));
    bac_close(node);

    CALL(BAC_OK, bac_open(node));
    CALL(BAC_OK, bac_add_object(node, 8, 1, (const uint8_t *)"device", 6));
    CALL(BAC_OK, bac_start_described_restarted(node, &s, 1000));
    CALL(BAC_CLOCK_BACK, bac_tick(node, 999));
    bac_close(node);

    CALL(BAC_OK, bac_open(node));
    CALL(BAC_OK, bac_add_object(node, 8, 1, (const uint8_t *)"device", 6));
    CALL(BAC_OK, bac_add_object(node, 13, 1, (const uint8_t *)"fan", 3));
    CALL(BAC_OK, bac_add_property(node, 85, zero, 2, true));
    if (tells(node, 1, 85, BAC_FLAW_VALUES)) { return 1; }
    bac_close(node);

    struct { uint16_t type; uint32_t instance; size_t name_len; uint32_t property, twice; bac_flaw flaw; } flaws[] = {
        { 0, 4194303, 1, 512, 513, BAC_FLAW_INSTANCE }, { 0, 1, 4092, 512, 513, BAC_FLAW_NAME }, { 10, 1, 1, 512, 513, BAC_FLAW_FILE },
        { 0, 1, 1, 76, 513, BAC_FLAW_NUMBER }, { 0, 1, 1, 512, 512, BAC_FLAW_TWICE }, { 8, 1, 1, 512, 513, BAC_FLAW_SAME_IDENTIFIER },
        { 0, 1, 2, 512, 513, BAC_FLAW_SAME_NAME }, { 8, 2, 1, 512, 513, BAC_FLAW_SECOND_DEVICE }, { 0, 1, 1, 512, 513, BAC_FLAW_NONE }
    };
    for (size_t i = 0; i < sizeof flaws / sizeof flaws[0]; i++) {
        bool of_property = flaws[i].flaw == BAC_FLAW_NUMBER || flaws[i].flaw == BAC_FLAW_TWICE, none = flaws[i].flaw == BAC_FLAW_NONE;
        CALL(BAC_OK, bac_open(node));
        CALL(BAC_OK, bac_add_object(node, 8, 1, many, 2));
        CALL(BAC_OK, bac_add_object(node, flaws[i].type, flaws[i].instance, many, flaws[i].name_len));
        CALL(BAC_OK, bac_add_property(node, flaws[i].property, two, 2, true));
        CALL(BAC_OK, bac_add_property(node, flaws[i].twice, two, 2, true));
        if (tells(node, none ? BAC_NO_OBJECT : 1, of_property ? flaws[i].property : BAC_WHOLE, flaws[i].flaw)) { return 1; }
        bac_close(node);
    }
    for (unsigned i = 0; i < 14; i++) { HOLDS(strcmp(bac_flaw_text((bac_flaw)i), "unknown flaw") != 0); }
    return 0;
}

/* what bac_start refuses of the objects that are listed, as it is told, is this; where it is nothing, it starts */
static int refuses(bac_node *node, uint64_t object, uint32_t property, bac_flaw flaw)
{
    bac_settings s = BAC_SETTINGS(127, 0, 0, 1, 0xBA, 0xC0);
    bac_refused wrong = { 7, 7, BAC_FLAW_NO_DEVICE };
    bac_status wanted = flaw == BAC_FLAW_NONE ? BAC_OK : flaw == BAC_FLAW_SAME_IDENTIFIER ? BAC_DUPLICATE : BAC_BAD_OBJECT;
    CALL(BAC_OK, bac_start_problem(node, &wrong));
    HOLDS(wrong.object == object && wrong.property == property && wrong.flaw == flaw);
    CALL(wanted, bac_start(node, &s));
    return 0;
}

/* the objects of bac_start: each flaw, and which comes first */
static int refused_rows(bac_node *node)
{
    static const uint8_t two[] = { 0x21, 2 }, state[] = { 0x91, 1 }, third[] = { 0x91, 2 }, text[] = { 0x72, 0, 'a' };
    struct {
        uint16_t type;
        uint32_t instance;
        size_t name_len;
        uint32_t property;
        const uint8_t *value;
        size_t len;
        bac_flaw flaw;
    } flaws[] = {
        { 1, 4194303, 4092, 512, two, 2, BAC_FLAW_TYPE }, { 13, 1, 1, 512, two, 2, BAC_FLAW_TYPE }, { 127, 1, 1, 512, two, 2, BAC_FLAW_TYPE },
        { 128, 1, 1, 512, two, 2, BAC_FLAW_NONE }, { 1023, 1, 1, 512, two, 2, BAC_FLAW_NONE }, { 0, 4194303, 4092, 512, two, 2, BAC_FLAW_INSTANCE },
        { 0, 4194302, 4092, 512, two, 2, BAC_FLAW_NAME }, { 0, 4194302, 4091, 512, two, 2, BAC_FLAW_NONE }, { 10, 1, 1, 512, two, 2, BAC_FLAW_FILE },
        { 8, 1, 1, 511, two, 2, BAC_FLAW_SAME_IDENTIFIER }, { 8, 2, 2, 512, two, 2, BAC_FLAW_NONE }, { 0, 1, 1, 511, two, 2, BAC_FLAW_NUMBER },
        { 0, 1, 1, 117, state, 2, BAC_FLAW_NUMBER }, { 0, 1, 1, 4194303, two, 2, BAC_FLAW_NONE }, { 0, 1, 1, 4194304, two, 2, BAC_FLAW_NUMBER },
        { 0, 1, 1, 513, two, 2, BAC_FLAW_TWICE }, { 0, 1, 1, 85, two, 2, BAC_FLAW_VALUES }, { 0, 1, 1, 85, REAL_10, 5, BAC_FLAW_NONE },
        { 5, 1, 1, 85, third, 2, BAC_FLAW_VALUES }, { 5, 1, 1, 85, state, 2, BAC_FLAW_NONE }, { 8, 2, 1, 85, two, 2, BAC_FLAW_NONE },
        { 2, 1, 1, 28, two, 2, BAC_FLAW_VALUES }, { 2, 1, 1, 28, text, 3, BAC_FLAW_NONE }
    };
    bac_refused wrong;
    CALL(BAC_OK, bac_open(node));
    if (refuses(node, BAC_NO_OBJECT, BAC_WHOLE, BAC_FLAW_NONE)) { return 1; } /* no objects are taken */
    CALL(BAC_ALREADY_STARTED, bac_start_problem(node, &wrong));
    bac_close(node);
    for (size_t i = 0; i < sizeof flaws / sizeof flaws[0]; i++) {
        bool of_property = flaws[i].flaw == BAC_FLAW_NUMBER || flaws[i].flaw == BAC_FLAW_TWICE || flaws[i].flaw == BAC_FLAW_VALUES;
        uint64_t object = flaws[i].flaw == BAC_FLAW_NONE ? BAC_NO_OBJECT : 1;
        CALL(BAC_OK, bac_open(node));
        CALL(BAC_OK, bac_add_object(node, 8, 1, many, 2));
        CALL(BAC_OK, bac_add_object(node, flaws[i].type, flaws[i].instance, many, flaws[i].name_len));
        CALL(BAC_OK, bac_add_property(node, 513, two, 2, true));
        CALL(BAC_OK, bac_add_property(node, flaws[i].property, flaws[i].value, flaws[i].len, true));
        if (refuses(node, object, of_property ? flaws[i].property : BAC_WHOLE, flaws[i].flaw)) { return 1; }
        if (flaws[i].flaw != BAC_FLAW_NONE) { /* the first object that is refused is told, whatever comes behind it */
            CALL(BAC_OK, bac_add_object(node, 9, 1, many, 1));
            CALL(BAC_OK, bac_start_problem(node, &wrong));
            HOLDS(wrong.object == 1 && wrong.flaw == flaws[i].flaw);
        }
        bac_close(node);
    }
    CALL(BAC_OK, bac_open(node)); /* limits, a file, and the first of two properties */
    CALL(BAC_OK, bac_add_object(node, 200, 1, many, 1));
    CALL(BAC_OK, bac_add_file(node, many, 1, true));
    if (refuses(node, 0, BAC_WHOLE, BAC_FLAW_FILE)) { return 1; }
    bac_close(node);
    CALL(BAC_OK, bac_open(node));
    CALL(BAC_OK, bac_add_object(node, 10, 1, many, 1));
    CALL(BAC_OK, bac_add_file(node, many, 60001, true));
    if (refuses(node, 0, BAC_WHOLE, BAC_FLAW_FILE)) { return 1; }
    CALL(BAC_OK, bac_add_file(node, many, 60000, true));
    CALL(BAC_OK, bac_add_property(node, 512, two, 2, true));
    CALL(BAC_OK, bac_limit_number(node, 2, 3, 9));
    if (refuses(node, 0, 512, BAC_FLAW_LIMITS)) { return 1; }
    CALL(BAC_OK, bac_limit_number(node, 9, 2, 2));
    if (refuses(node, 0, 512, BAC_FLAW_LIMITS)) { return 1; }
    CALL(BAC_OK, bac_limit_number(node, 2, 2, 2));
    CALL(BAC_OK, bac_add_property(node, 600, two, 2, true));
    CALL(BAC_OK, bac_allow(node, third, 2));
    if (refuses(node, 0, 600, BAC_FLAW_LIMITS)) { return 1; }
    CALL(BAC_OK, bac_add_property(node, 512, two, 2, true)); /* behind it, and told no more than what is first */
    if (refuses(node, 0, 600, BAC_FLAW_LIMITS)) { return 1; }
    bac_close(node);
    return 0;
}

/* values at their limits of length */
static int long_rows(bac_node *node)
{
    static uint8_t string[4096 + 4];
    for (size_t len = 4096; len <= 4097; len++) {
        CALL(BAC_OK, bac_open(node));
        CALL(BAC_OK, bac_add_object(node, 200, 1, many, 1));
        string[0] = 0x65;
        string[1] = 254;
        string[2] = (uint8_t)((len - 4) >> 8);
        string[3] = (uint8_t)(len - 4);
        CALL(BAC_OK, bac_add_property(node, 512, string, len, true));
        if (refuses(node, len == 4096 ? BAC_NO_OBJECT : 0, len == 4096 ? BAC_WHOLE : 512, len == 4096 ? BAC_FLAW_NONE : BAC_FLAW_VALUES)) { return 1; }
        bac_close(node);
    }
    return 0;
}

/* a write of a set-point that is to be from 5.0 to 35.0: what is answered, and whether it is performed with that priority */
static int writes(bac_node *node, uint8_t invoke, const uint8_t *value, uint8_t priority, const uint8_t *wanted, size_t wanted_len)
{
    uint8_t request[26] = { 0x81, 0x0A, 0, 24, 1, 4, 0, 5, 0, 15, 0x0C, 0, 0x80, 0, 1, 0x19, 85, 0x3E };
    bac_act a;
    request[8] = invoke;
    memcpy(request + 18, value, 5);
    request[23] = 0x3F;
    if (priority != 0) {
        request[3] = 26;
        request[24] = 0x49;
        request[25] = priority;
    }
    CALL(BAC_OK, bac_on(node, 1, THERE, request, request[3]));
    n = bac_send(node, 0, to, out, sizeof out);
    HOLDS(bac_sends(node) == 1 && n == wanted_len && out[7] == invoke);
    out[7] = 0;
    HOLDS(memcmp(out, wanted, n) == 0);
    HOLDS(bac_performed(node, &a, out, sizeof out) == 5 && a.service == 15 && a.priority == priority && a.done == (wanted_len == 9));
    return 0;
}

/* limits of a property: at them and one beyond */
static int limited_rows(bac_node *node)
{
    static const uint8_t done[] = { 0x81, 0x0A, 0, 9, 1, 0, 0x20, 0, 15 }, outside[] = { 0x81, 0x0A, 0, 13, 1, 0, 0x50, 0, 15, 0x91, 2, 0x91, 37 };
    static const uint32_t taken[] = { 0x40A00000, 0x41A00000, 0x420C0000 }, refused[] = { 0x409FFFFF, 0x420C0001, 0x7FC00000, 0xFF800000 };
    static const uint8_t one[] = { 0x21, 1 };
    bac_settings s = BAC_SETTINGS(127, 0, 0, 1, 0xBA, 0xC0);
    uint8_t value[5];
    for (unsigned described = 0; described < 2; described++) {
        CALL(BAC_OK, bac_open(node));
        CALL(BAC_BAD_OBJECT, bac_limit(node, REAL_10, 5, REAL_20, 5));
        CALL(BAC_OK, bac_add_object(node, 8, 1, (const uint8_t *)"device", 6));
        CALL(BAC_OK, bac_add_object(node, 2, 1, (const uint8_t *)"set", 3));
        CALL(BAC_BAD_OBJECT, bac_limit(node, REAL_10, 5, REAL_20, 5));
        CALL(BAC_OK, bac_add_property(node, 512, one, 2, true));
        CALL(BAC_OK, bac_add_property(node, 85, REAL_20, 5, true));
        CALL(BAC_BAD_OBJECT, bac_limit(node, REAL_10, 4, REAL_20, 5));
        CALL(BAC_BAD_OBJECT, bac_limit(node, REAL_10, 5, REAL_20, 4));
        CALL(BAC_OK, bac_limit(node, REAL_10, 5, REAL_10, 5));
        if (tells(node, 1, 85, BAC_FLAW_LIMITS)) { return 1; }
        CALL(BAC_BAD_OBJECT, bac_start(node, &s));
        CALL(BAC_OK, bac_limit_float(node, 5.0f, 35.0f));
        CALL(BAC_OK, described ? bac_start_described(node, &s) : bac_start(node, &s));
        for (uint8_t i = 0; i < 3; i++) {
            bac_put_real(value, taken[i]);
            if (writes(node, i, value, (uint8_t)(i * 8), done, sizeof done)) { return 1; }
        }
        for (uint8_t i = 0; i < 4; i++) {
            bac_put_real(value, refused[i]);
            if (writes(node, (uint8_t)(3 + i), value, 0, outside, sizeof outside)) { return 1; }
        }
        bac_put_real(value, refused[0]);
        CALL(BAC_OK, bac_set_value(node, 2, 1, 85, value, 5)); /* the node itself has no limits */
        bac_close(node);
    }
    return 0;
}

/* a list of values that a property takes: it begins with the first, takes the place of limits, and gives way to them */
static int allowed_rows(bac_node *node)
{
    static const uint8_t done[] = { 0x81, 0x0A, 0, 9, 1, 0, 0x20, 0, 15 }, outside[] = { 0x81, 0x0A, 0, 13, 1, 0, 0x50, 0, 15, 0x91, 2, 0x91, 37 };
    static const uint8_t one[] = { 0x21, 1 }, real_15[] = { 0x44, 0x41, 0x70, 0, 0 };
    bac_settings s = BAC_SETTINGS(127, 0, 0, 1, 0xBA, 0xC0);
    for (unsigned described = 0; described < 2; described++) {
        CALL(BAC_OK, bac_open(node));
        CALL(BAC_BAD_OBJECT, bac_allow(node, REAL_10, 5));
        CALL(BAC_OK, bac_add_object(node, 8, 1, (const uint8_t *)"device", 6));
        CALL(BAC_OK, bac_add_object(node, 2, 1, (const uint8_t *)"set", 3));
        CALL(BAC_BAD_OBJECT, bac_allow(node, REAL_10, 5));
        CALL(BAC_OK, bac_add_property(node, 512, one, 2, true));
        CALL(BAC_OK, bac_add_property(node, 85, REAL_20, 5, true));
        CALL(BAC_BAD_OBJECT, bac_allow(node, REAL_10, 4));
        CALL(BAC_OK, bac_limit_float(node, 0.0f, 100.0f));
        CALL(BAC_OK, bac_allow(node, REAL_10, 5));
        if (tells(node, 1, 85, BAC_FLAW_LIMITS)) { return 1; } /* 20.0 is not in the list */
        CALL(BAC_OK, bac_allow(node, one, 2));
        CALL(BAC_OK, bac_allow(node, REAL_20, 5));
        if (tells(node, 1, 85, BAC_FLAW_LIMITS)) { return 1; } /* 1 is no Real */
        CALL(BAC_OK, bac_limit_float(node, 0.0f, 100.0f));
        CALL(BAC_OK, bac_allow(node, REAL_10, 5));
        CALL(BAC_OK, bac_allow(node, REAL_20, 5));
        CALL(BAC_OK, described ? bac_start_described(node, &s) : bac_start(node, &s));
        CALL(BAC_ALREADY_STARTED, bac_allow(node, REAL_10, 5));
        if (writes(node, 0, REAL_10, 0, done, sizeof done) || writes(node, 1, REAL_20, 0, done, sizeof done)) { return 1; }
        if (writes(node, 2, real_15, 0, outside, sizeof outside)) { return 1; }
        CALL(BAC_OK, bac_set_value(node, 2, 1, 85, real_15, 5)); /* the node itself has no list */
        bac_close(node);
    }
    return 0;
}

/* names of the standard, both ways, and the texts of the header */
static int name_rows(void)
{
    char text[64];
    float value = 0;
    uint8_t octets[5];
    HOLDS(bac_version() == BAC_VERSION);
    HOLDS(strcmp(bac_name_text(BAC_OBJECT_TYPE, 0, text, sizeof text), "analog-input") == 0);
    HOLDS(strcmp(bac_name_text(BAC_PROPERTY, 85, text, sizeof text), "present-value") == 0);
    HOLDS(strcmp(bac_name_text(BAC_ERROR_CLASS, 2, text, sizeof text), "property") == 0);
    HOLDS(strcmp(bac_name_text(BAC_ERROR_CODE, 37, text, sizeof text), "value-out-of-range") == 0);
    HOLDS(strcmp(bac_name_text(BAC_REJECT_REASON, 9, text, sizeof text), "unrecognized-service") == 0);
    HOLDS(strcmp(bac_name_text(BAC_ABORT_REASON, 4, text, sizeof text), "segmentation-not-supported") == 0);
    HOLDS(strcmp(bac_name_text(BAC_OBJECT_TYPE, 1023, text, sizeof text), "1023") == 0);
    HOLDS(strcmp(bac_name_text(BAC_PROPERTY, 4294967295u, text, sizeof text), "4294967295") == 0);
    HOLDS(strcmp(bac_name_text(BAC_PROPERTY, 85, text, 8), "present") == 0 && strcmp(bac_name_text(BAC_PROPERTY, 600, text, 1), "") == 0);
    HOLDS(bac_name(6, 0, out, sizeof out) == 0 && bac_name(BAC_OBJECT_TYPE, 0, out, 3) == 12);
    HOLDS(bac_number(BAC_OBJECT_TYPE, (const uint8_t *)"analog-value", 12) == 2 && bac_number(BAC_PROPERTY, (const uint8_t *)"units", 5) == 117);
    HOLDS(bac_number(BAC_PROPERTY, (const uint8_t *)"unit", 4) == BAC_WHOLE && bac_number(BAC_ERROR_CODE, (const uint8_t *)"other", 5) == BAC_WHOLE);
    for (uint32_t i = 0; i < 1024; i++) { /* none is longer than bac_name_text has room for */
        HOLDS(bac_name(BAC_PROPERTY, i, out, sizeof out) <= 64 && bac_name(BAC_ERROR_CODE, i, out, sizeof out) <= 64);
        n = bac_name(BAC_PROPERTY, i, out, sizeof out);
        HOLDS(n == 0 || bac_number(BAC_PROPERTY, out, n) == i);
    }
    HOLDS(strcmp(bac_kind_name(0), "null") == 0 && strcmp(bac_kind_name(7), "text") == 0 && strcmp(bac_kind_name(REAL_10[0] >> 4), "real") == 0);
    HOLDS(strcmp(bac_kind_name(12), "object") == 0 && strcmp(bac_kind_name(13), "unknown kind") == 0);
    HOLDS(strcmp(bac_how_text(BAC_TIMED_OUT), "timed out") == 0 && strcmp(bac_text(BAC_BAD_VALUE), "bad value") == 0);
    HOLDS(strcmp(bac_flaw_text(BAC_FLAW_NO_DEVICE), "no device") == 0 && strcmp(bac_flaw_text((bac_flaw)14), "unknown flaw") == 0);
    bac_put_float(octets, 10.0f);
    HOLDS(memcmp(octets, REAL_10, 5) == 0 && bac_take_float(REAL_20, 5, &value) && value == 20.0f && !bac_take_float(REAL_20, 4, &value));
    return 0;
}

/* the octets of a value as the standard has them, and that the node takes them as data */
static int listed_as(bac_node *node, uint32_t number, const uint8_t *octets, size_t len, const uint8_t *wanted, size_t wanted_len)
{
    HOLDS(len == wanted_len && memcmp(octets, wanted, len) == 0);
    CALL(BAC_OK, bac_add_property(node, number, octets, len, true));
    return 0;
}

/* Null, Boolean, Signed and BitString: their octets (clauses 20.2.2, 20.2.3, 20.2.5 and 20.2.10), and back */
static int more_value_rows(bac_node *node)
{
    static const struct { int32_t number; uint8_t len, octets[5]; } numbers[] = {
        { 0, 2, { 0x31, 0 } }, { 127, 2, { 0x31, 0x7F } }, { -128, 2, { 0x31, 0x80 } }, { 128, 3, { 0x32, 0, 0x80 } }, { -129, 3, { 0x32, 0xFF, 0x7F } },
        { 32767, 3, { 0x32, 0x7F, 0xFF } }, { -32768, 3, { 0x32, 0x80, 0 } }, { 32768, 4, { 0x33, 0, 0x80, 0 } }, { -32769, 4, { 0x33, 0xFF, 0x7F, 0xFF } },
        { 8388607, 4, { 0x33, 0x7F, 0xFF, 0xFF } }, { -8388608, 4, { 0x33, 0x80, 0, 0 } }, { 8388608, 5, { 0x34, 0, 0x80, 0, 0 } },
        { -8388609, 5, { 0x34, 0xFF, 0x7F, 0xFF, 0xFF } }, { INT32_MAX, 5, { 0x34, 0x7F, 0xFF, 0xFF, 0xFF } }, { INT32_MIN, 5, { 0x34, 0x80, 0, 0, 0 } }
    };
    static const struct { uint32_t bits; unsigned count; uint8_t len, octets[7]; } strings[] = {
        { 0, 0, 2, { 0x81, 0 } }, { 0, 4, 3, { 0x82, 4, 0 } }, { 1, 4, 3, { 0x82, 4, 0x80 } }, { 2, 4, 3, { 0x82, 4, 0x40 } }, { 8, 4, 3, { 0x82, 4, 0x10 } },
        { 0xFF, 8, 3, { 0x82, 0, 0xFF } }, { 0x101, 9, 4, { 0x83, 7, 0x80, 0x80 } }, { 0x800001, 24, 5, { 0x84, 0, 0x80, 0, 1 } },
        { 0x1000000, 25, 7, { 0x85, 5, 7, 0, 0, 0, 0x80 } }, { 0x80000001u, 32, 7, { 0x85, 5, 0, 0x80, 0, 0, 1 } }
    };
    static const uint8_t null[] = { 0 }, yes[] = { 0x11 }, no[] = { 0x10 }, unused[] = { 0x82, 8, 0 }, none[] = { 0x81, 1 };
    uint8_t octets[7];
    uint32_t property = 600, bits = 0;
    unsigned count = 0;
    int32_t number = 0;
    bool value = false;
    bac_put_null(octets);
    if (listed_as(node, property++, octets, 1, null, 1)) { return 1; }
    HOLDS(bac_take_null(octets, 1) && !bac_take_null(octets, 0) && !bac_take_null(no, 1) && !bac_take_null(octets, 2));
    bac_put_boolean(octets, true);
    if (listed_as(node, property++, octets, 1, yes, 1)) { return 1; }
    HOLDS(bac_take_boolean(octets, 1, &value) && value);
    bac_put_boolean(octets, false);
    if (listed_as(node, property++, octets, 1, no, 1)) { return 1; }
    HOLDS(bac_take_boolean(octets, 1, &value) && !value && !bac_take_boolean(null, 1, &value) && !bac_take_boolean(yes, 2, &value));
    for (size_t i = 0; i < sizeof numbers / sizeof numbers[0]; i++) {
        n = bac_put_signed(octets, numbers[i].number);
        if (listed_as(node, property++, octets, n, numbers[i].octets, numbers[i].len)) { return 1; }
        HOLDS(bac_take_signed(octets, n, &number) && number == numbers[i].number && !bac_take_signed(octets, n - 1, &number));
    }
    HOLDS(!bac_take_signed(yes, 1, &number) && !bac_take_number(numbers[0].octets, 2, 2, &bits));
    for (size_t i = 0; i < sizeof strings / sizeof strings[0]; i++) {
        n = bac_put_bits(octets, strings[i].bits, strings[i].count);
        if (listed_as(node, property++, octets, n, strings[i].octets, strings[i].len)) { return 1; }
        HOLDS(bac_take_bits(octets, n, &bits, &count) && bits == strings[i].bits && count == strings[i].count);
        HOLDS(!bac_take_bits(octets, n - 1, &bits, &count));
    }
    HOLDS(bac_put_bits(octets, 0, 33) == 0 && bac_put_bits(octets, 0xFFFFFFF0u, 4) == 3 && memcmp(octets, strings[1].octets, 3) == 0);
    HOLDS(!bac_take_bits(unused, 3, &bits, &count) && !bac_take_bits(none, 2, &bits, &count) && !bac_take_bits(numbers[0].octets, 2, &bits, &count));
    return 0;
}

/* values as octets: each is data that the node takes, and is read back */
static int value_rows(bac_node *node)
{
    static const uint32_t numbers[] = { 0, 1, 255, 256, 65535, 65536, 16777215, 16777216, 4294967295u };
    static const uint8_t three_hundred[] = { 0x22, 0x01, 0x2C }, active[] = { 0x91, 0x01 };
    static const uint8_t abc[] = { 0x74, 0, 'a', 'b', 'c' }, abcd[] = { 0x75, 5, 0, 'a', 'b', 'c', 'd' };
    static const uint8_t utf_16[] = { 0x73, 4, 0, 'a' };
    static char text[4001];
    static uint8_t data[4096];
    const char *read = NULL;
    size_t read_len = 9;
    bac_settings s = BAC_SETTINGS(127, 0, 0, 1, 0xBA, 0xC0);
    uint32_t back = 0;
    CALL(BAC_OK, bac_open(node));
    CALL(BAC_OK, bac_add_object(node, 200, 1, many, 0));
    HOLDS(bac_put_number(data, 2, 300) == 3 && memcmp(data, three_hundred, 3) == 0);
    HOLDS(bac_put_number(data, 9, 1) == 2 && memcmp(data, active, 2) == 0);
    HOLDS(bac_put_text(data, sizeof data, "abc", 3) == 5 && memcmp(data, abc, 5) == 0);
    HOLDS(bac_put_text(data, sizeof data, "abcd", 4) == 7 && memcmp(data, abcd, 7) == 0);
    HOLDS(bac_put_text(data, sizeof data, text, 4001) == 0 && bac_put_text(data, 7, "abc", 3) == 0);
    HOLDS(!bac_take_text(active, 2, &read, &read_len) && !bac_take_text(utf_16, 4, &read, &read_len) && read == NULL && read_len == 9);
    HOLDS(!bac_take_real(active, 2, &back) && !bac_take_number(active, 2, 2, &back) && back == 0);
    for (size_t i = 0; i < sizeof numbers / sizeof numbers[0]; i++) {
        for (unsigned kind = 2; kind <= 9; kind += 7) {
            n = bac_put_number(data, kind, numbers[i]);
            HOLDS(bac_take_number(data, n, kind, &back) && back == numbers[i]);
            CALL(BAC_OK, bac_add_property(node, (uint32_t)(512 + 2 * i + (kind == 9)), data, n, true));
        }
        bac_put_real(data, numbers[i]);
        HOLDS(bac_take_real(data, 5, &back) && back == numbers[i]);
    }
    if (more_value_rows(node)) { return 1; }
    memset(text, 'x', sizeof text);
    CALL(BAC_OK, bac_add_property(node, 28, data, bac_put_text(data, sizeof data, text, 253), true));
    CALL(BAC_OK, bac_start_house(node, &s));
    for (size_t len = 0; len <= 4000; len += len < 260 ? 1 : 340) {
        n = bac_put_text(data, sizeof data, text, len);
        HOLDS(bac_take_text(data, n, &read, &read_len) && read_len == len && memcmp(read, text, len) == 0);
        HOLDS(!bac_take_text(data, n - 1, &read, &read_len) && !bac_take_text(data, n + 1, &read, &read_len));
        CALL(BAC_OK, bac_set_value(node, 2, 1, 28, data, n));
    }
    bac_close(node);
    return 0;
}

/* a node that ran before: it turns requests away for 65,000 ms, and asks nothing for 75,000 ms */
static int restarted_rows(bac_node *node)
{
    bac_settings s = BAC_SETTINGS(127, 0, 0, 1, 0xBA, 0xC0), bad = s;
    bac_target t = { { 127, 0, 0, 1, 0xBA, 0xC2 }, 5, true, 7 };
    bac_reference r = { 0, 5, 85, BAC_WHOLE };
    bac_act a;
    uint64_t ticket;
    bad.reply_slots = 65537;
    CALL(BAC_OK, bac_open(node));
    CALL(BAC_OK, bac_add_object(node, 0, 5, many, 0));
    CALL(BAC_OK, bac_add_property(node, 85, FLOW + 17, 5, false));
    CALL(BAC_BAD_SETTINGS, bac_start_restarted(node, &bad, 1000));
    CALL(BAC_OK, bac_add_object(node, 0, 5, many, 0));
    CALL(BAC_DUPLICATE, bac_start_restarted(node, &s, 1000));
    bac_close(node);
    CALL(BAC_OK, bac_open(node));
    CALL(BAC_OK, bac_add_object(node, 0, 5, many, 0));
    CALL(BAC_OK, bac_add_property(node, 85, FLOW + 17, 5, false));
    CALL(BAC_OK, bac_start_restarted(node, &s, 1000));
    HOLDS(bac_sends(node) == 0);
    CALL(BAC_CLOCK_BACK, bac_tick(node, 999));
    CALL(BAC_OK, bac_on(node, 66000, THERE, QUESTION, sizeof QUESTION));
    n = bac_send(node, 0, to, out, sizeof out);
    HOLDS(bac_sends(node) == 1 && n == sizeof ABORTED && memcmp(out, ABORTED, n) == 0);
    HOLDS(bac_performed(node, &a, out, sizeof out) == 0 && a.service == 0);
    CALL(BAC_OK, bac_on(node, 66001, THERE, QUESTION, sizeof QUESTION));
    n = bac_send(node, 0, to, out, sizeof out);
    HOLDS(bac_sends(node) == 1 && n == sizeof FLOW && memcmp(out, FLOW, n) == 0);
    CALL(BAC_NO_INVOKE_ID, bac_ask_read(node, 76000, &t, &r, &ticket));
    CALL(BAC_OK, bac_ask_read(node, 76001, &t, &r, &ticket));
    bac_close(node);
    return 0;
}

/* what a peer and the tables allow of asks */
static int limit_rows(bac_node *node)
{
    bac_settings s = BAC_SETTINGS(127, 0, 0, 1, 0xBA, 0xC0);
    bac_target t = { { 127, 0, 0, 1, 0xBA, 0xC2 }, 5, false, 7 };
    bac_reference r = { 0, 5, 85, BAC_WHOLE };
    uint64_t ticket;
    s.client_slots = 1;
    CALL(BAC_OK, bac_open(node));
    CALL(BAC_OK, bac_start_house(node, &s));
    CALL(BAC_TOO_LONG, bac_ask_put(node, 0, &t, 1, -1, many, sizeof many, &ticket));
    CALL(BAC_NEEDS_SEGMENTS, bac_ask_put(node, 0, &t, 1, -1, many, 2000, &ticket));
    CALL(BAC_BAD_REQUEST, bac_ask_get(node, 0, &t, 4194304, 0, 1, &ticket));
    CALL(BAC_OK, bac_ask_read(node, 0, &t, &r, &ticket));
    CALL(BAC_NO_SLOT, bac_ask_read(node, 0, &t, &r, &ticket));
    bac_close(node);
    return 0;
}

/* a request comes: what it is answered, and the service that is performed, 0 for none */
static int answers(bac_node *node, const uint8_t *request, size_t len, const uint8_t *wanted, size_t wanted_len, uint8_t service)
{
    bac_act a;
    CALL(BAC_OK, bac_on(node, 1, THERE, request, len));
    n = bac_send(node, 0, to, out, sizeof out);
    HOLDS(bac_sends(node) == 1 && n == wanted_len && memcmp(out, wanted, n) == 0);
    bac_performed(node, &a, out, sizeof out);
    HOLDS(a.service == service);
    return 0;
}

/* a client uses one invoke ID again: without the setting an equal read gets the old value, and another request an Abort; with it both are performed, reads take
 * no slot, and a write that equals the last request is a repeat */
static int reuse_rows(bac_node *node)
{
    static const uint8_t flow_20[] = { 0x81, 0x0A, 0, 0x17, 1, 0, 0x30, 1, 0x0C, 0x0C, 0, 0, 0, 5, 0x19, 0x55, 0x3E, 0x44, 0x41, 0xA0, 0, 0, 0x3F };
    static const uint8_t write[] = { 0x81, 0x0A, 0, 24, 1, 4, 0, 5, 1, 15, 0x0C, 0, 0x80, 0, 1, 0x19, 85, 0x3E, 0x44, 0x41, 0x20, 0, 0, 0x3F };
    static const uint8_t done[] = { 0x81, 0x0A, 0, 9, 1, 0, 0x20, 1, 15 };
    bac_settings s = BAC_SETTINGS(127, 0, 0, 1, 0xBA, 0xC0);
    HOLDS(!s.reuse_invoke_ids);
    for (unsigned i = 0; i < 2; i++) {
        bool reuse = i == 1;
        s.reuse_invoke_ids = reuse;
        CALL(BAC_OK, bac_open(node));
        CALL(BAC_OK, bac_start_house(node, &s));
        if (answers(node, QUESTION, sizeof QUESTION, FLOW, sizeof FLOW, 12)) { return 1; }
        CALL(BAC_OK, bac_set_value(node, 0, 5, 85, REAL_20, 5));
        if (answers(node, QUESTION, sizeof QUESTION, reuse ? flow_20 : FLOW, sizeof FLOW, reuse ? 12 : 0)) { return 1; }
        HOLDS(bac_live(node, 1) == (reuse ? 0 : 1));
        if (answers(node, write, sizeof write, reuse ? done : ABORTED, sizeof done, reuse ? 15 : 0)) { return 1; }
        if (answers(node, write, sizeof write, reuse ? done : ABORTED, sizeof done, 0)) { return 1; }
        HOLDS(bac_live(node, 1) == 1);
        if (answers(node, QUESTION, sizeof QUESTION, reuse ? flow_20 : FLOW, sizeof FLOW, reuse ? 12 : 0)) { return 1; }
        if (answers(node, write, sizeof write, reuse ? done : ABORTED, sizeof done, reuse ? 15 : 0)) { return 1; }
        bac_close(node);
    }
    return 0;
}

/* a node that may keep just so many octets hears a request where there is room for its own 7 and for 65,539 beside them, and no other */
static int memory_rows(bac_node *node)
{
    bac_settings s = BAC_SETTINGS(127, 0, 0, 1, 0xBA, 0xC0);
    HOLDS(s.memory == 0);
    s.memory = 65539;
    CALL(BAC_OK, bac_open(node));
    CALL(BAC_BAD_SETTINGS, bac_start_house(node, &s));
    s.memory = 65545;
    CALL(BAC_OK, bac_start_house(node, &s));
    CALL(BAC_NO_MEMORY, bac_on(node, 1, THERE, QUESTION, sizeof QUESTION));
    HOLDS(bac_live(node, 1) == 0);
    bac_close(node);
    s.memory = 65546;
    CALL(BAC_OK, bac_open(node));
    CALL(BAC_OK, bac_start_house(node, &s));
    if (answers(node, QUESTION, sizeof QUESTION, FLOW, sizeof FLOW, 12)) { return 1; }
    bac_close(node);
    return 0;
}

/* the datagrams of a call go over, and what they are answered comes back, turn by turn, until the ask has ended */
static int carry(bac_node *client, bac_node *server, uint64_t now)
{
    bac_node *from = client, *at = server;
    for (;;) {
        size_t count = bac_sends(from);
        HOLDS(count > 0);
        for (size_t i = 0; i < count; i++) {
            n = bac_send(from, i, to, out, sizeof out);
            HOLDS(n <= sizeof out && memcmp(to, at == server ? THERE : HERE, 6) == 0);
            CALL(BAC_OK, bac_on(at, now, at == server ? HERE : THERE, out, n));
            HOLDS(i + 1 == count || bac_sends(at) == 0);
        }
        if (at == client && bac_ends(client) > 0) {
            HOLDS(bac_ends(client) == 1);
            return 0;
        }
        bac_node *next = from;
        from = at;
        at = next;
    }
}

/* a file goes over in segments, and comes back so */
static int segment_rows(bac_node *client, bac_node *server, const bac_target *t)
{
    static uint8_t back[SEGMENTED];
    bac_ending e;
    bac_act a;
    uint64_t ticket;
    memset(many, 'y', SEGMENTED);
    CALL(BAC_OK, bac_ask_put(client, 150, t, 1, 0, many, SEGMENTED, &ticket));
    if (carry(client, server, 151)) { return 1; }
    HOLDS(bac_end(client, 0, &e, back, sizeof back) == 0 && e.how == BAC_PLACED && e.position == 0);
    HOLDS(bac_performed(server, &a, back, sizeof back) == SEGMENTED && a.service == 7 && a.done && memcmp(back, many, SEGMENTED) == 0);
    memset(back, 0, sizeof back);
    CALL(BAC_OK, bac_ask_get(client, 160, t, 1, 0, SEGMENTED, &ticket));
    if (carry(client, server, 161)) { return 1; }
    HOLDS(bac_end(client, 0, &e, back, sizeof back) == SEGMENTED && e.how == BAC_CONTENT && e.code == 1);
    HOLDS(memcmp(back, many, SEGMENTED) == 0);
    return 0;
}

static int ask_rows(bac_node *client, bac_node *server)
{
    bac_target t = { { 127, 0, 0, 1, 0xBA, 0xC2 }, 5, true, 7 }, self = t, bad = t;
    bac_reference r = { 2, 1, 85, BAC_WHOLE }, none = r, wrong = r;
    bac_ending e;
    bac_act a;
    uint64_t ticket = 99;
    static const uint8_t more[] = { 'o', 'n' };
    memcpy(self.link, HERE, 6);
    bad.max_apdu = 6;
    none.instance = 9;
    wrong.object_type = 1024;
    CALL(BAC_SELF_PEER, bac_ask_read(client, 100, &self, &r, &ticket));
    CALL(BAC_BAD_REQUEST, bac_ask_read(client, 100, &bad, &r, &ticket));
    CALL(BAC_BAD_REQUEST, bac_ask_read(client, 100, &t, &wrong, &ticket));
    CALL(BAC_BAD_REQUEST, bac_ask_write(client, 100, &t, &r, REAL_10, 4, 0, &ticket));
    CALL(BAC_BAD_REQUEST, bac_ask_write(client, 100, &t, &r, REAL_10, 5, 17, &ticket));
    CALL(BAC_CLOCK_BACK, bac_ask_read(client, 1, &t, &r, &ticket));
    HOLDS(ticket == 99);

    CALL(BAC_OK, bac_ask_read(client, 100, &t, &r, &ticket));
    HOLDS(ticket == 0 && bac_held(client, 100) == 1 && bac_next_due(client) > 100);
    if (carry(client, server, 101)) { return 1; }
    n = bac_end(client, 0, &e, out, sizeof out);
    HOLDS(e.ticket == 0 && e.how == BAC_VALUES && n == 5 && memcmp(out, REAL_20, 5) == 0);
    HOLDS(bac_end(client, 1, &e, out, sizeof out) == 0);

    CALL(BAC_OK, bac_ask_write(client, 110, &t, &r, REAL_10, 5, 16, &ticket));
    if (carry(client, server, 111)) { return 1; }
    HOLDS(bac_end(client, 0, &e, out, sizeof out) == 0 && e.ticket == 1 && e.how == BAC_DONE);
    n = bac_performed(server, &a, out, sizeof out);
    HOLDS(a.service == 15 && a.done && a.priority == 16 && a.property == 85 && n == 5 && memcmp(out, REAL_10, 5) == 0);

    CALL(BAC_OK, bac_ask_append(client, 120, &t, 1, more, 2, &ticket));
    if (carry(client, server, 121)) { return 1; }
    HOLDS(bac_end(client, 0, &e, out, sizeof out) == 0 && e.how == BAC_PLACED && e.position == 2);
    n = bac_performed(server, &a, out, sizeof out);
    HOLDS(a.service == 7 && a.done && a.object_type == 10 && a.position == -1 && n == 2 && memcmp(out, more, 2) == 0);

    CALL(BAC_OK, bac_ask_get(client, 130, &t, 1, 1, 100, &ticket));
    if (carry(client, server, 131)) { return 1; }
    n = bac_end(client, 0, &e, out, sizeof out);
    HOLDS(e.how == BAC_CONTENT && e.code == 1 && e.position == 1 && n == 3 && memcmp(out, "eon", 3) == 0);

    CALL(BAC_OK, bac_ask_read(client, 140, &t, &none, &ticket));
    if (carry(client, server, 141)) { return 1; }
    HOLDS(bac_end(client, 0, &e, out, sizeof out) == 0 && e.how == BAC_ERROR && e.class_ == 1 && e.code == 31);
    HOLDS(bac_performed(server, &a, out, sizeof out) == 0 && a.service == 12 && !a.done);

    if (segment_rows(client, server, &t)) { return 1; }

    /* nobody answers: it is sent four times, and ends */
    CALL(BAC_OK, bac_ask_read(client, 200, &t, &r, &ticket));
    for (unsigned repeats = 0; repeats < 3; repeats++) {
        CALL(BAC_OK, bac_tick(client, bac_next_due(client)));
        HOLDS(bac_sends(client) == 1 && bac_ends(client) == 0);
    }
    CALL(BAC_OK, bac_tick(client, bac_next_due(client)));
    HOLDS(bac_ends(client) == 1 && bac_end(client, 0, &e, out, sizeof out) == 0 && e.how == BAC_TIMED_OUT && e.ticket == ticket);
    return 0;
}

static int rows(bac_node *client, bac_node *server)
{
    if (name_rows() || described_rows(client) || limited_rows(client)) { return 1; }
    if (allowed_rows(client) || refused_rows(client) || long_rows(client)) { return 1; }
    if (edge_rows(client) || value_rows(client) || restarted_rows(client) || limit_rows(client) || reuse_rows(client) || memory_rows(client)) { return 1; }
    if (closed_rows(client) || house_rows(client) || own_rows(server) || ask_rows(client, server)) { return 1; }
    bac_close(client);
    return closed_rows(client);
}

static int run(void)
{
    bac_node client = BAC_NODE_EMPTY, server = BAC_NODE_EMPTY;
    int failed = rows(&client, &server);
    bac_close(&client);
    bac_close(&server);
    return failed;
}

/* as many objects as can be described, and one more */
static int most_rows(bac_node *node)
{
    bac_settings s = BAC_SETTINGS(127, 0, 0, 1, 0xBA, 0xC0);
    bac_reference r = { 8, 1, 76, BAC_WHOLE };
    char name[16];
    for (unsigned count = 819; count <= 820; count++) {
        CALL(BAC_OK, bac_open(node));
        CALL(BAC_OK, bac_add_object(node, 8, 1, (const uint8_t *)"device", 6));
        for (unsigned i = 1; i < count; i++) {
            CALL(BAC_OK, bac_add_object(node, 0, i, (const uint8_t *)name, (size_t)snprintf(name, sizeof name, "%u", i)));
        }
        if (tells(node, BAC_NO_OBJECT, BAC_WHOLE, count == 819 ? BAC_FLAW_NONE : BAC_FLAW_TOO_MANY)) { return 1; }
        CALL(count == 819 ? BAC_OK : BAC_BAD_OBJECT, bac_start_described(node, &s));
        if (count == 819) {
            CALL(BAC_OK, bac_get_value(node, &r, many, sizeof many, &n));
            HOLDS(n == 819 * 5);
            memset(many, 0, sizeof many);
        }
        bac_close(node);
    }
    return 0;
}

/* 1 to 65,536 slots at each end */
static int slot_rows(bac_node *node)
{
    static const size_t numbers[] = { 0, 1, 1024, 1025, 65536, 65537, SIZE_MAX };
    for (unsigned i = 0; i < 14; i++) {
        size_t slots = numbers[i / 2];
        bac_status wanted = slots < 1 || slots > 65536 ? BAC_BAD_SETTINGS : BAC_OK;
        for (unsigned start = 0; start < 5; start++) {
            bac_settings s = BAC_SETTINGS(127, 0, 0, 1, 0xBA, 0xC0);
            *(i % 2 != 0 ? &s.client_slots : &s.reply_slots) = slots;
            CALL(BAC_OK, bac_open(node));
            CALL(BAC_OK, bac_add_object(node, 8, 1, (const uint8_t *)"device", 6));
            switch (start) {
            case 0: CALL(wanted, bac_start(node, &s)); break;
            case 1: CALL(wanted, bac_start_restarted(node, &s, 0)); break;
            case 2: CALL(wanted, bac_start_described(node, &s)); break;
            case 3: CALL(wanted, bac_start_described_restarted(node, &s, 0)); break;
            default: CALL(wanted, bac_start_house(node, &s));
            }
            bac_close(node);
        }
    }
    return 0;
}

/* a node remembers as many requests as it has slots, and aborts the next */
static int full_rows(bac_node *node, size_t slots)
{
    bac_settings s = BAC_SETTINGS(127, 0, 0, 1, 0xBA, 0xC0);
    uint8_t from[6] = { 10, 0, 0, 0, 0, 0 };
    s.reply_slots = slots;
    CALL(BAC_OK, bac_open(node));
    CALL(BAC_OK, bac_start_house(node, &s));
    for (size_t i = 0; i <= slots; i++) {
        from[3] = (uint8_t)(i >> 16);
        from[4] = (uint8_t)(i >> 8);
        from[5] = (uint8_t)i;
        CALL(BAC_OK, bac_on(node, 1, from, QUESTION, sizeof QUESTION));
        n = bac_send(node, 0, to, out, sizeof out);
        HOLDS(bac_sends(node) == 1 && n == (i < slots ? sizeof FLOW : sizeof ABORTED) && memcmp(out, i < slots ? FLOW : ABORTED, n) == 0);
    }
    HOLDS(bac_live(node, 1) == slots);
    bac_close(node);
    return 0;
}

int main(void)
{
    bac_node node = BAC_NODE_EMPTY;
    if (most_rows(&node) || slot_rows(&node) || full_rows(&node, 1) || full_rows(&node, 1025) || full_rows(&node, 65536)) { return 1; }
    return refuse_each(run);
}
