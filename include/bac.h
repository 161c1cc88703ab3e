/* bac.h: a proved BACnet/IP node (ReadProperty, WriteProperty, AtomicReadFile, AtomicWriteFile, with segmentation in both directions; ANSI/ASHRAE 135) inside
 * your own program. Your program owns the socket and the clock. The node has a copy of the objects; it answers requests, and sends its own. docs/C.md explains
 * the words, and has a first program.
 *
 * Link libbac_c.a and a heap (examples/c/heap.c), or the archive of `make -C include install`, which has one. C99 and C++, on x86-64 (x86-64-v2 or later) and
 * aarch64 Linux. 32-bit targets are not supported.
 *
 * Rules of every call
 * - A bac_node begins as BAC_NODE_EMPTY, is never copied, and its members are never touched. If it is used before bac_open, opened twice, used after bac_close
 *   or closed twice, no harm is done: a call with a status returns BAC_NOT_OPEN or BAC_ALREADY_OPEN, any other 0 or false (bac_next_due: UINT64_MAX).
 * - After a status that is not BAC_OK the node is unchanged, and no ticket or length is written to its place. After BAC_NO_MEMORY the same call may be made
 *   again. Wait before that: what was due stays due, and bac_next_due stays in the past. A datagram that was refused so is lost, and its sender repeats it.
 * - A call whose node is const leaves the node unchanged. Even so, no other call of that node may run at the same time.
 * - Moments are milliseconds of one clock, from any start. It never goes back, and runs while the host sleeps (Linux: CLOCK_BOOTTIME).
 * - A link is four octets of IPv4 address and two of UDP port, the high one first, as sockaddr_in has them.
 * - Octets are given by address and number, and stay the caller's. A call that copies octets out tells how many there are: it returns the number or, if it
 *   returns a status, writes it to *len. If there are more than there is room for, it copies none.
 * - The results of a call (bac_sends to bac_cause) can be read until the next bac_on, bac_tick, bac_ask_.., bac_start.. or bac_close that succeeds. So read all
 *   of them after each call.
 *
 * What the program promises (nothing checks it)
 * - Each pointer is valid for the call, never null (except that of bac_close), also if the number is 0, and no two of one call overlap. A bool is 0 or 1.
 * - One call at a time for a node: from any thread, under one lock, and none from a signal handler. Two nodes share nothing but the heap.
 * - That nothing is performed twice also needs these: the moment of bac_on is read after the datagram came, and its sender is the true one; each datagram of a
 *   call is sent once, at once, and never again; none is given to bac_on long after it came, not even again after BAC_NO_MEMORY. docs/C.md says more.
 */
#ifndef BAC_H
#define BAC_H

#include <stdbool.h>
#include <stddef.h>
#include <stdint.h>
#include <string.h>

#ifdef __cplusplus
extern "C" {
#endif

/* The version of this header: 10,000 times the major number, 100 times the minor one, and the patch. A library of the same major number and of this or a later
 * minor one has all that is declared here: see docs/C.md, "What stays". */
#define BAC_VERSION 10500

/* The version of the library that is linked. */
uint32_t bac_version(void);

/* A node. The library owns its memory from bac_open to bac_close. */
typedef struct bac_node {
    bool held;
    void *at;
} bac_node;

#define BAC_NODE_EMPTY \
    { 0, 0 }

typedef enum bac_status {
    BAC_OK = 0,
    BAC_CLOCK_BACK = 1,       /* the moment is before the latest one that the node was told */
    BAC_NO_MEMORY = 2,        /* memory was refused, by the heap or by the member memory of bac_settings */
    BAC_NOT_OPEN = 3,         /* not opened, or closed */
    BAC_NOT_STARTED = 4,      /* open, and not started */
    BAC_ALREADY_OPEN = 5,
    BAC_ALREADY_STARTED = 6,
    BAC_BAD_SETTINGS = 7,     /* a member of bac_settings is outside its range */
    BAC_BAD_OBJECT = 8,       /* an object, name, property, value or file that no node can have */
    BAC_DUPLICATE = 9,        /* two objects of one type and instance */
    BAC_BAD_REQUEST = 10,     /* a number outside its range, or octets that are no data */
    BAC_SELF_PEER = 11,       /* the peer is at the node's own link */
    BAC_TOO_LONG = 12,        /* more octets than can be sent (65,535 of a request), or kept */
    BAC_NEEDS_SEGMENTS = 13,  /* the peer takes no segments, or fewer than are needed */
    BAC_NO_INVOKE_ID = 14,    /* all 256 invoke IDs are held for that peer, each for 135,000 ms from when its request was first sent, even if that has ended;
                                 or the node restarted less than 75,001 ms ago */
    BAC_NO_SLOT = 15,         /* all client slots are held, each as long as an invoke ID */
    BAC_NO_SUCH_OBJECT = 16,
    BAC_NO_SUCH_PROPERTY = 17,
    BAC_BAD_VALUE = 18        /* a value that the property cannot have, or a kept cell that does not fit */
} bac_status;

/* The settings of a node. Initialize them with BAC_SETTINGS, then change the members that you need. */
typedef struct bac_settings {
    size_t size;           /* sizeof(bac_settings), 48 in each version from 1.1 on: a library refuses settings of another size (BAC_BAD_SETTINGS) */
    uint8_t link[6];       /* its own link */
    uint8_t max_apdu;      /* the longest APDU that it takes: 0 to 5 for 50, 128, 206, 480, 1024 and 1476 octets */
    bool takes_segments;   /* whether it takes responses in segments */
    uint8_t max_segments;  /* how many: 0 to 7 for unspecified, 2, 4, 8, 16, 32, 64 and more */
    uint8_t window;        /* the greatest window that it proposes or grants: 1 to 64 segments */
    size_t client_slots;   /* how many client requests it holds, each until 135,000 ms after it was first sent, even if it has ended: 1 to 65,536. Each takes
                              30 octets from the start, whether it is in use or not */
    size_t reply_slots;    /* how many requests it remembers, each for 65,000 ms: 1 to 65,536. Where all slots are held, a new one is answered by Abort 0.
                              With reuse_invoke_ids they are shared: an IP address that holds more than 15 for each that would stay free gets Abort 0 too.
                              Each takes 30 octets from the start, and some 240 in all while it remembers a short response */
    bool reuse_invoke_ids; /* whether a client, of another vendor say, may use an invoke ID again as soon as its transaction is over (clause 5.4).
                              false: for 65,000 ms an equal request of the same client under the same invoke ID gets the old response and is not performed, a
                              read too (no answer if that went in segments, and was acknowledged or aborted); another one is answered by Abort 0. So a client
                              can send at most 256 new requests in 65,000 ms.
                              true: a read whose response is one APDU is performed each time that it comes, and takes no slot; a longer response holds its slot
                              until its last segment is acknowledged, or the client aborts it. A different request of that client under that invoke ID ends
                              the kept response and is performed. A write that equals the last request of the same client under its invoke ID, within 65,000
                              ms, is a repeat: it gets the old response and is not performed again, even if bac_set_value changed the value since. A request
                              in segments counts as a repeat if the last request came in segments too, and either begins with the same service and first
                              segment, or had more than 256 segments. Later segments are not compared */
    uint8_t later[3];      /* 0: room for members of later versions */
    uint32_t memory;       /* how many octets of clients' requests and of responses it keeps, 65,540 and more; 0: 67,108,864. Set 131,072 or more: a new
                              request, and each of its segments, is accepted only if 65,539 octets are free beside its own; otherwise bac_on returns
                              BAC_NO_MEMORY. No room is needed by a repeat of a request that was received whole, or, with reuse_invoke_ids, by a read whose
                              response is one APDU. The heap may hold twice as many octets, and 2 kB a slot in use */
} bac_settings;

/* APDUs of 1476 octets, any number of segments, windows of 32, 64 slots at each end (64 requests of its own in 135,000 ms, 64 of clients in 65,000), at that
 * link; clients may not use an invoke ID again, and it keeps up to 64 MiB. */
#define BAC_SETTINGS(a, b, c, d, port_high, port_low) \
    { sizeof(bac_settings), { (uint8_t)(a), (uint8_t)(b), (uint8_t)(c), (uint8_t)(d), (uint8_t)(port_high), (uint8_t)(port_low) }, \
      5, true, 7, 32, 64, 64, false, { 0 }, 0 }

/* The device to which a client request goes, and what it takes; codes as in bac_settings. It has no network number: no request goes behind a router. */
typedef struct bac_target {
    uint8_t link[6];
    uint8_t max_apdu;
    bool takes_segments;
    uint8_t max_segments;
} bac_target;

#define BAC_WHOLE 0xFFFFFFFFu

/* A property of an object. */
typedef struct bac_reference {
    uint16_t object_type; /* 0 to 1,023 */
    uint32_t instance;    /* 0 to 4,194,303 */
    uint32_t property;
    uint32_t index;       /* an element of an array, or BAC_WHOLE */
} bac_reference;

typedef enum bac_how {
    BAC_VALUES = 0,    /* a property was read: the octets are its values */
    BAC_DONE = 1,      /* a property was written */
    BAC_ERROR = 2,     /* class and code */
    BAC_REJECT = 3,    /* code is the reason */
    BAC_ABORT = 4,     /* code is the reason */
    BAC_TIMED_OUT = 5, /* no answer to any of its tries */
    BAC_EXPIRED = 6,   /* no whole answer within 60,000 ms */
    BAC_CONTENT = 7,   /* a file was read: the octets begin at `position` in the file; code is 1 if they reach its end, otherwise 0 */
    BAC_PLACED = 8     /* a file was written: the octets begin at `position` in the file */
} bac_how;             /* after BAC_ABORT, BAC_TIMED_OUT and BAC_EXPIRED the request may have been performed all the same */

/* How a client request ended. */
typedef struct bac_ending {
    uint64_t ticket;
    bac_how how;
    uint32_t class_;
    uint32_t code;
    int64_t position;
} bac_ending;

/* A request that the node performed. */
typedef struct bac_act {
    uint8_t link[6];      /* the client's link, or that of the router it is behind */
    uint8_t service;      /* 6 AtomicReadFile, 7 AtomicWriteFile, 12 ReadProperty, 15 WriteProperty; 0: none was performed */
    bool done;            /* false where it was answered with an Error, and changed nothing */
    uint16_t object_type;
    uint8_t priority;     /* of a write of a property, 1 to 16; 0 where it has none, and of all else */
    uint32_t instance;
    uint32_t property;    /* 0 of a file; 0 is also the property acked-transitions, so look at service first */
    uint32_t index;       /* an element, or BAC_WHOLE; 0 of a file */
    int64_t position;     /* in the file, -1 its end (where done is false it may be the number of a record); 0 of a property */
} bac_act;

#define BAC_NO_OBJECT UINT64_MAX

/* What is wrong with the objects that are listed. */
typedef enum bac_flaw {
    BAC_FLAW_NONE = 0,            /* nothing: the object is BAC_NO_OBJECT and the property BAC_WHOLE */
    BAC_FLAW_INSTANCE = 1,        /* instance 4,194,303, the wildcard */
    BAC_FLAW_NAME = 2,            /* a name of more than 4,091 octets */
    BAC_FLAW_FILE = 3,            /* a file without octets, octets without a file, or more than 60,000 of them */
    BAC_FLAW_NUMBER = 4,          /* a property that is computed, or a number above 4,194,303; of bac_start any but 28, 85 and 512 to 4,194,303 */
    BAC_FLAW_TWICE = 5,           /* a property that the object lists twice */
    BAC_FLAW_VALUES = 6,          /* values that this property cannot have, or more than 4,096 octets */
    BAC_FLAW_LIMITS = 7,          /* limits that are reversed, do not allow the values, or are of another kind */
    BAC_FLAW_SAME_IDENTIFIER = 8, /* an earlier object has the same type and instance */
    BAC_FLAW_SAME_NAME = 9,       /* an earlier object has the same name */
    BAC_FLAW_SECOND_DEVICE = 10,  /* an earlier object is the device */
    BAC_FLAW_TOO_MANY = 11,       /* more than 819 objects */
    BAC_FLAW_NO_DEVICE = 12,      /* no object is a device */
    BAC_FLAW_TYPE = 13            /* a type that bac_start does not take: any but 0, 2, 5, 8, 10 and 128 to 1,023 */
} bac_flaw;

/* The first object that a start refuses. */
typedef struct bac_refused {
    uint64_t object;   /* its place in the order in which the objects were listed, from 0; BAC_NO_OBJECT where no single one is refused */
    uint32_t property; /* the property that is refused; BAC_WHOLE where the object is, for another reason */
    bac_flaw flaw;
} bac_refused;

/* ---- layout */

#if UINTPTR_MAX != 0xFFFFFFFFFFFFFFFFu
#error "64-bit targets only"
#endif

/* How the library lays out what you hand it and what it writes to. A compiler that does so otherwise, by an option such as -fshort-enums or -fpack-struct,
 * stops here. */
#define BAC_LAYOUT(type, octets, last, at) extern const char bac_layout[sizeof(type) == (octets) && offsetof(type, last) == (at) ? 1 : -1]
BAC_LAYOUT(bac_node, 16, at, 8);
BAC_LAYOUT(bac_settings, 48, memory, 44);
BAC_LAYOUT(bac_target, 9, max_segments, 8);
BAC_LAYOUT(bac_reference, 16, index, 12);
BAC_LAYOUT(bac_ending, 32, position, 24);
BAC_LAYOUT(bac_act, 32, position, 24);
BAC_LAYOUT(bac_refused, 16, flaw, 12);
extern const char bac_layout[sizeof(bac_status) == 4 && sizeof(bac_how) == 4 && sizeof(bac_flaw) == 4 ? 1 : -1];

/* ---- opening and closing */

/* Opens a node without objects. BAC_ALREADY_OPEN, BAC_NO_MEMORY. */
bac_status bac_open(bac_node *node);

/* Frees all that the node has. */
void bac_release(bac_node *node);

/* The same; does nothing if there is no node (NULL). */
static inline void bac_close(bac_node *node)
{
    if (node != NULL) {
        bac_release(node);
    }
}

/* ---- objects: between bac_open and bac_start */

/* Lists an object: its type (bac_start takes 0 analog-input, 2 analog-value, 5 binary-value, 8 device, 10 file and 128 to 1,023, bac_start_described all), its
 * instance, 0 to 4,194,302, and its name in UTF-8.
 * BAC_BAD_OBJECT exactly if the type is above 1,023, the instance above 4,194,303, or the name is not UTF-8. bac_start checks all else: so instance 4,194,303,
 * the wildcard, can be listed, and each start refuses it.
 * BAC_NOT_OPEN, BAC_ALREADY_STARTED, BAC_NO_MEMORY. */
bac_status bac_add_object(bac_node *node, uint16_t object_type, uint32_t instance, const uint8_t *name, size_t name_len);

/* Lists a property of the object that was listed last: its values as octets of data (clause 20.2), and whether the network may write them. Number 28 is a
 * description, a CharacterString. Number 85 is a present-value: a Real of the analog types, Enumerated 0 or 1 of a binary-value, any values of the others. 512
 * to 4,194,303 are a vendor's own, with any values. bac_start takes these alone; for bac_start_described see there. The node computes an object's identifier,
 * name and type, and a file's size and access method.
 * BAC_BAD_OBJECT exactly if no object is listed, or the octets are no data; bac_start checks all else. Otherwise as bac_add_object. */
bac_status bac_add_property(bac_node *node, uint32_t number, const uint8_t *octets, size_t len, bool writable);

/* Gives the property that was listed last limits for writes from the network: the least and the greatest value, as octets of data, of the kind of its values
 * (Real, Unsigned, Signed or Enumerated). A write outside them gets Error 2:37, value-out-of-range, and changes nothing; the limits do not apply to
 * bac_set_value.
 * BAC_BAD_OBJECT exactly if the object that was listed last has no property, or the octets are no data; bac_start checks whether the limits fit the values.
 * Otherwise as bac_add_object. */
bac_status bac_limit(bac_node *node, const uint8_t *least, size_t least_len, const uint8_t *greatest, size_t greatest_len);

/* Adds one value, as octets of data of the kind of its values, to the list of those that the network may write to the property that was listed last. The first
 * one begins the list, and replaces limits. A write of octets that are not in the list gets Error 2:37, and changes nothing. The first values of the property
 * have to be in its list. BAC_BAD_OBJECT exactly if the object that was listed last has no property, or the octets are no data. Otherwise as bac_limit. */
bac_status bac_allow(bac_node *node, const uint8_t *octets, size_t len);

/* Gives the object that was listed last, a file, its octets, and says whether the network may write them. If it may, and the object lists read-only (99, which
 * only bac_start_described takes), it may also write the file-size, 0 to 60,000: this cuts the file or appends zeros. BAC_BAD_OBJECT exactly if no object is
 * listed. Otherwise as bac_add_object. */
bac_status bac_add_file(bac_node *node, const uint8_t *octets, size_t len, bool writable);

/* Starts the node with the objects that are listed; if it refuses, they stay listed. For a node that never ran at this link before; at each later start call
 * bac_start_restarted, or bac_start_kept.
 * BAC_NOT_OPEN; BAC_ALREADY_STARTED; BAC_BAD_SETTINGS; BAC_NO_MEMORY; BAC_DUPLICATE; BAC_BAD_OBJECT. The last is returned if an object has a type, instance,
 * property or value that none can have, a property twice, a name of more than 4,091 octets, values of more than 4,096 or a file of more than 60,000, or is a
 * file without octets or has octets without being a file. The first that holds is returned, and memory may be refused before the objects are checked.
 * bac_start_problem says which object it is, and why. */
bac_status bac_start(bac_node *node, const bac_settings *settings);

/* The same at a moment, for a node that ran before at this link and lost what it remembered: its program or its host was restarted. List the objects as they
 * are now. For 65,000 ms each new request is refused (Abort, reason 0), so that none of the earlier run is performed twice; but with reuse_invoke_ids a read
 * whose response is one APDU is performed. For 75,000 ms each client request is refused (BAC_NO_INVOKE_ID). */
bac_status bac_start_restarted(bac_node *node, const bac_settings *settings, uint64_t now);

/* Writes to refused the first object that bac_start refuses, and why; BAC_FLAW_NONE exactly if it takes all that are listed. Not for bac_start_described, which
 * has other rules: see bac_problem. The object's first flaw in this order is given: BAC_FLAW_TYPE, _INSTANCE, _NAME, _FILE, _SAME_IDENTIFIER, and then of its
 * first property that has one _NUMBER, _TWICE, _VALUES, _LIMITS. So BAC_DUPLICATE is _SAME_IDENTIFIER here, at the later one of the two, unless another flaw
 * comes first. The node is unchanged. BAC_NOT_OPEN; BAC_ALREADY_STARTED; BAC_NO_MEMORY. */
bac_status bac_start_problem(const bac_node *node, bac_refused *refused);

/* Starts the node as bac_start does, with objects of any type and any properties: those that a document (docs/OBJECTS.md) with `described = true` has. The
 * object-list of the device is computed too. Present-values of the types 0, 1 and 2 are a Real, of 3, 4 and 5 Enumerated 0 or 1, of 13, 14 and 19 an Unsigned
 * from 1 on. There is exactly one device, no two objects have one name, and there are at most 819. Other properties may have any values, and no other is
 * required.
 * BAC_NOT_OPEN; BAC_ALREADY_STARTED; BAC_BAD_SETTINGS; BAC_NO_MEMORY; BAC_BAD_OBJECT: bac_problem says which, and why. */
bac_status bac_start_described(bac_node *node, const bac_settings *settings);

/* The same for a node that ran before, as bac_start_restarted. */
bac_status bac_start_described_restarted(bac_node *node, const bac_settings *settings, uint64_t now);

/* Writes to refused the first object that bac_start_described refuses, and why; BAC_FLAW_NONE if it takes all that are listed. Not for bac_start: see
 * bac_start_problem. The node is unchanged. BAC_NOT_OPEN; BAC_ALREADY_STARTED; BAC_NO_MEMORY. */
bac_status bac_problem(const bac_node *node, bac_refused *refused);

/* ---- through a power cut: what the network may write, kept by the program in cells. docs/C.md, "Through a power cut", has the order of the calls.
 *
 * A cell is octets at a place. A place is a number below 2^55 that stands for a property, or for a part of a file, in each run of the node and in each version
 * of the library: `bac serve --keep` has the same. A property has one cell. A file has one for each 1,024 octets, or what is left of them, and then one for the
 * number of those cells. What the network may not write has none: list it as it is. */

/* Lists a cell that was kept, in any order; it replaces an earlier one of that place. BAC_BAD_OBJECT if the number is a place of no type, instance, property or
 * part of a file, whichever the objects are; bac_start_kept checks all else. BAC_NOT_OPEN, BAC_ALREADY_STARTED, BAC_NO_MEMORY. The starts that are not _kept
 * ignore these cells. */
bac_status bac_add_kept(bac_node *node, uint64_t place, const uint8_t *octets, size_t len);

/* Starts the node as bac_start_restarted does. Then each property and file that the network may write, and of which cells are listed, has what they hold;
 * limits and lists of values do not matter here. A cell has no effect if its property or file is gone, or if the network may no longer write it.
 * The statuses are those of bac_start_restarted, and after these BAC_BAD_VALUE if a cell does not fit. Of a property: it has another kind now. Of a file: a
 * part is missing, a part has a wrong length (the last one 1 to 1,024 octets, each before it 1,024), or all parts have more than 60,000 octets. Memory may be
 * refused before that. With BAC_BAD_VALUE, and only then, the place of that cell is written to *place; of a file, the place of the cell that holds the
 * number of its parts. All stays listed, and you may list another cell of that place before the next start. */
bac_status bac_start_kept(bac_node *node, const bac_settings *settings, uint64_t now, uint64_t *place);

/* The same with objects of any type, as bac_start_described_restarted. */
bac_status bac_start_described_kept(bac_node *node, const bac_settings *settings, uint64_t now, uint64_t *place);

/* Starts the node with the house of `bac serve` instead: device 1, analog-input 5, analog-value 1, binary-value 1, file 1. BAC_NOT_OPEN, BAC_ALREADY_STARTED,
 * BAC_BAD_SETTINGS, BAC_NO_MEMORY. */
bac_status bac_start_house(bac_node *node, const bac_settings *settings);

/* ---- datagrams and time */

/* Gives the node a datagram that came: its whole UDP payload, from the octet 0x81 (BVLC) on. BAC_NOT_OPEN, BAC_NOT_STARTED, BAC_CLOCK_BACK; BAC_NO_MEMORY,
 * never if the datagram is dropped. */
bac_status bac_on(bac_node *node, uint64_t now, const uint8_t from[6], const uint8_t *octets, size_t len);

/* Does all that is due, or nothing: repeats, and client requests that end. BAC_NOT_OPEN, BAC_NOT_STARTED, BAC_CLOCK_BACK, BAC_NO_MEMORY: then wait, as all
 * stays due. */
bac_status bac_tick(bac_node *node, uint64_t now);

/* The first moment at which bac_tick does anything; UINT64_MAX: none, or no node that is started. It stays in the past while ticks are refused memory: after
 * BAC_NO_MEMORY a loop that waits until then has to wait some milliseconds more, or it spins. */
uint64_t bac_next_due(const bac_node *node);

/* ---- client requests, to another device. Each has a ticket, which bac_end names later; after each call send what bac_send has, as after bac_on
 *
 * BAC_NOT_OPEN; BAC_NOT_STARTED; BAC_BAD_REQUEST exactly if a number is outside its range or the octets to be written are no data. Then the first of
 * BAC_CLOCK_BACK, BAC_SELF_PEER, BAC_TOO_LONG, BAC_NEEDS_SEGMENTS, BAC_NO_INVOKE_ID and BAC_NO_SLOT that holds, or BAC_NO_MEMORY: memory may be refused before
 * these are checked. The ticket is written with BAC_OK alone. */

/* Reads a property, or one element of it. */
bac_status bac_ask_read(bac_node *node, uint64_t now, const bac_target *target, const bac_reference *reference, uint64_t *ticket);

/* Writes values, as octets of data (clause 20.2), to a property or one element of it. priority: 1 to 16, or 0 for none */
bac_status bac_ask_write(bac_node *node, uint64_t now, const bac_target *target, const bac_reference *reference, const uint8_t *octets, size_t len,
                         uint8_t priority, uint64_t *ticket);

/* Puts octets into a file. file: the instance of a file object. position: where the octets go, -1 at the end (an append). 2^32 octets or more are
 * BAC_BAD_REQUEST. */
bac_status bac_ask_put(bac_node *node, uint64_t now, const bac_target *target, uint32_t file, int64_t position, const uint8_t *octets, size_t len,
                       uint64_t *ticket);

/* Puts the octets at the end of the file. */
static inline bac_status bac_ask_append(bac_node *node, uint64_t now, const bac_target *target, uint32_t file, const uint8_t *octets, size_t len,
                                        uint64_t *ticket)
{
    return bac_ask_put(node, now, target, file, -1, octets, len, ticket);
}

/* Gets at most count octets of a file, from the position on. */
bac_status bac_ask_get(bac_node *node, uint64_t now, const bac_target *target, uint32_t file, int64_t position, uint64_t count, uint64_t *ticket);

/* ---- results of the last call */

/* How many datagrams are to be sent, and each, in order: where it goes, and its octets (at most 1,514). If the index is not below what bac_sends returns,
 * bac_send returns 0 and writes nothing. */
size_t bac_sends(const bac_node *node);
size_t bac_send(const bac_node *node, size_t index, uint8_t to[6], uint8_t *out, size_t room);

/* How many client requests have ended, and how each did, with the octets that came (at most 65,535): check after each bac_on and each bac_tick. If the index is
 * not below what bac_ends returns, bac_end returns 0 and writes nothing. */
size_t bac_ends(const bac_node *node);
size_t bac_end(const bac_node *node, size_t index, bac_ending *ending, uint8_t *out, size_t room);

/* The request that was performed, with the octets that it asks to write (at most 65,535; if act->done is true, at most 4,096 of a property, 60,000 of a file).
 * If act->service is 7 or 15 and act->done is true, they were written: act on it. */
size_t bac_performed(const bac_node *node, bac_act *act, uint8_t *out, size_t room);

/* Whether that request wrote something; if so, written says what: a property, or, with BAC_WHOLE in place of its number, the octets of a file, which a
 * write of its file-size changes too. Otherwise nothing is written to it. */
bool bac_written(const bac_node *node, bac_reference *written);

/* Why the last datagram was dropped: 0 it was not, 1 no BVLL that the node takes (also a broadcast or a forwarded NPDU), 2 no NPDU, 3 routed elsewhere, 4 a
 * network message, 5 no APDU, 6 from the node's own link. */
uint32_t bac_cause(const bac_node *node);

/* ---- the node's own store: these calls take no moment, send nothing, and leave the results of the last call to be read
 *
 * BAC_NOT_OPEN; BAC_NOT_STARTED; BAC_BAD_REQUEST exactly if a type is above 1,023 or an instance above 4,194,303; then what each call names. BAC_NO_MEMORY only
 * if there are octets to copy. */

/* Sets the values of a listed property, whether or not the network may write it. The first of BAC_NO_SUCH_OBJECT, BAC_NO_SUCH_PROPERTY (also a computed one),
 * BAC_BAD_VALUE (no data, another kind than the property was listed with, no state of a binary type, or 0 of a multi-state type) and BAC_TOO_LONG (more than
 * 4,096 octets). The limits and lists of bac_limit and bac_allow do not apply here: they are for writes from the network. */
bac_status bac_set_value(bac_node *node, uint16_t object_type, uint32_t instance, uint32_t property, const uint8_t *octets, size_t len);

/* Copies out what a ReadProperty would get: the values of a property, computed ones too, or one element of an array. Their number of octets is written to len.
 * BAC_NO_SUCH_OBJECT; BAC_NO_SUCH_PROPERTY, also if there is no such element. */
bac_status bac_get_value(const bac_node *node, const bac_reference *reference, uint8_t *out, size_t room, size_t *len);

/* Sets all octets of a file, whether or not the network may write it. BAC_NO_SUCH_OBJECT, also if the object is not a file; BAC_TOO_LONG (more than 60,000). */
bac_status bac_set_file(bac_node *node, uint32_t file, const uint8_t *octets, size_t len);

/* Copies all octets of a file out; their number is written to len. BAC_NO_SUCH_OBJECT, also if the object is not a file. */
bac_status bac_get_file(const bac_node *node, uint32_t file, uint8_t *out, size_t room, size_t *len);

/* Adds octets to the end of a file. scratch needs room for all its octets and these: BAC_TOO_LONG if there is less, or as bac_set_file. */
static inline bac_status bac_append_file(bac_node *node, uint32_t file, const uint8_t *octets, size_t len, uint8_t *scratch, size_t room)
{
    size_t old = 0;
    bac_status status = bac_get_file(node, file, scratch, room, &old);
    if (status != BAC_OK) {
        return status;
    }
    if (old > room || len > room - old) {
        return BAC_TOO_LONG;
    }
    memcpy(scratch + old, octets, len);
    return bac_set_file(node, file, scratch, old + len);
}

/* How many cells there are to keep of a property, or, with BAC_WHOLE in place of its number, of the octets of a file; the index is ignored. 0 if the network
 * may not write it, if it does not exist, and if no node is started. */
size_t bac_cells(const bac_node *node, const bac_reference *what);

/* Each of them, as it is now: its place, and its octets (at most 4,096). If the index is not below what bac_cells returns, returns 0 and writes nothing. */
size_t bac_cell(const bac_node *node, const bac_reference *what, size_t index, uint64_t *place, uint8_t *out, size_t room);

/* ---- how full the node is, at a moment: the client slots that are held, and the requests that are remembered */

size_t bac_held(const bac_node *node, uint64_t now);
size_t bac_live(const bac_node *node, uint64_t now);

/* ---- texts */

/* The names of the standard's numbers, as `bac` prints them. */
typedef enum bac_kind {
    BAC_OBJECT_TYPE = 0,
    BAC_PROPERTY = 1,
    BAC_ERROR_CLASS = 2,
    BAC_ERROR_CODE = 3,
    BAC_REJECT_REASON = 4,
    BAC_ABORT_REASON = 5
} bac_kind;

/* Copies the name of a number out, such as `present-value`, without a terminating zero. Returns how many octets it has, at most 64; 0 if the standard has no
 * such number. */
size_t bac_name(uint32_t kind, uint32_t number, uint8_t *out, size_t room);

/* The number of an object type or a property, by its name; BAC_WHOLE if the standard has no such name. */
uint32_t bac_number(uint32_t kind, const uint8_t *name, size_t name_len);

/* The name, otherwise the decimal number, with a terminating zero; it is cut off if the room, at least 1, is too small. Returns out. */
static inline char *bac_name_text(bac_kind kind, uint32_t number, char *out, size_t room)
{
    uint8_t name[64];
    size_t len = bac_name((uint32_t)kind, number, name, sizeof name);
    if (len == 0 || len > sizeof name) {
        uint32_t rest = number;
        uint8_t digits[10];
        size_t count = 0;
        do {
            digits[count++] = (uint8_t)('0' + rest % 10);
            rest /= 10;
        } while (rest > 0);
        for (len = 0; len < count; len++) {
            name[len] = digits[count - 1 - len];
        }
    }
    len = len < room ? len : room - 1;
    memcpy(out, name, len);
    out[len] = 0;
    return out;
}

/* The text of how a client request ended. */
static inline const char *bac_how_text(bac_how how)
{
    static const char *const texts[] = { "values", "done", "error", "reject", "abort", "timed out", "expired", "content", "placed" };
    return (unsigned)how < sizeof texts / sizeof texts[0] ? texts[how] : "unknown ending";
}

/* The text of what is wrong with an object. */
static inline const char *bac_flaw_text(bac_flaw flaw)
{
    static const char *const texts[] = {
        "nothing is wrong", "instance 4194303 is the wildcard", "a name that is too long", "contents of a file that don't fit",
        "a property that can't be listed",
        "a property that is listed twice", "values that don't fit the property", "limits that don't fit the values",
        "an identifier that an earlier object has", "a name that an earlier object has", "a second device", "too many objects", "no device",
        "a type that bac_start does not take"
    };
    return (unsigned)flaw < sizeof texts / sizeof texts[0] ? texts[flaw] : "unknown flaw";
}

/* The name of a kind of values, as `bac` prints it before a value: 0 null, 1 boolean, 2 unsigned, 3 signed, 4 real, 5 double, 6 octets, 7 text, 8 bits,
 * 9 enumerated, 10 date, 11 time, 12 object. Of octets of data that are one value it is the four high bits of the first one. */
static inline const char *bac_kind_name(unsigned kind)
{
    static const char *const texts[] = {
        "null", "boolean", "unsigned", "signed", "real", "double", "octets", "text", "bits", "enumerated", "date", "time", "object"
    };
    return kind < sizeof texts / sizeof texts[0] ? texts[kind] : "unknown kind";
}

/* The text of a status. */
static inline const char *bac_text(bac_status status)
{
    static const char *const texts[] = {
        "ok", "the clock went back", "no memory", "not open", "not started", "already open", "already started", "bad settings", "bad object",
        "two objects of one type and instance", "bad request", "the peer is the node itself", "too long", "the peer takes too few segments",
        "no invoke ID is free", "no slot is free", "no such object", "no such property", "bad value"
    };
    return (unsigned)status < sizeof texts / sizeof texts[0] ? texts[status] : "unknown status";
}

/* ---- values as octets of data (clause 20.2), and back. There are none for Double, OctetString, Date, Time and ObjectIdentifier: encode these yourself. These
 * are C, and no proof covers them: octets that are no data are refused by each call that takes them. */

/* A Null: one octet. */
static inline void bac_put_null(uint8_t out[1])
{
    out[0] = 0;
}

/* Whether the octets are a Null. */
static inline bool bac_take_null(const uint8_t *octets, size_t len)
{
    return len == 1 && octets[0] == 0;
}

/* A Boolean, as out-of-service has: one octet. */
static inline void bac_put_boolean(uint8_t out[1], bool value)
{
    out[0] = value ? 0x11 : 0x10;
}

/* Whether the octets are a Boolean, and its value. */
static inline bool bac_take_boolean(const uint8_t *octets, size_t len, bool *value)
{
    if (len != 1 || (octets[0] != 0x10 && octets[0] != 0x11)) {
        return false;
    }
    *value = octets[0] == 0x11;
    return true;
}

/* A Real, from the bits of an IEEE 754 single: five octets. */
static inline void bac_put_real(uint8_t out[5], uint32_t bits)
{
    out[0] = 0x44;
    out[1] = (uint8_t)(bits >> 24);
    out[2] = (uint8_t)(bits >> 16);
    out[3] = (uint8_t)(bits >> 8);
    out[4] = (uint8_t)bits;
}

/* A Real, from a float, which has to be an IEEE 754 single. */
static inline void bac_put_float(uint8_t out[5], float value)
{
    uint32_t bits;
    memcpy(&bits, &value, sizeof bits);
    bac_put_real(out, bits);
}

/* Whether the octets are a Real, and its bits. */
static inline bool bac_take_real(const uint8_t *octets, size_t len, uint32_t *bits)
{
    if (len != 5 || octets[0] != 0x44) {
        return false;
    }
    *bits = (uint32_t)octets[1] << 24 | (uint32_t)octets[2] << 16 | (uint32_t)octets[3] << 8 | octets[4];
    return true;
}

/* Whether the octets are a Real, and its value. */
static inline bool bac_take_float(const uint8_t *octets, size_t len, float *value)
{
    uint32_t bits;
    if (!bac_take_real(octets, len, &bits)) {
        return false;
    }
    memcpy(value, &bits, sizeof bits);
    return true;
}

/* Gives the property that was listed last limits, if its value is a Real: as bac_limit. */
static inline bac_status bac_limit_float(bac_node *node, float least, float greatest)
{
    uint8_t from[5], to[5];
    bac_put_float(from, least);
    bac_put_float(to, greatest);
    return bac_limit(node, from, sizeof from, to, sizeof to);
}

/* An Unsigned (kind 2) or an Enumerated (kind 9; 0 and 1 are the states of a binary-value), in the fewest octets: how many they are. No other kind. */
static inline size_t bac_put_number(uint8_t out[5], unsigned kind, uint32_t number)
{
    size_t len = number >> 24 ? 4 : number >> 16 ? 3 : number >> 8 ? 2 : 1;
    out[0] = (uint8_t)(kind << 4 | len);
    for (size_t i = 0; i < len; i++) {
        out[1 + i] = (uint8_t)(number >> 8 * (len - 1 - i));
    }
    return 1 + len;
}

/* Whether the octets are a number of that kind of at most 32 bits, and the number. */
static inline bool bac_take_number(const uint8_t *octets, size_t len, unsigned kind, uint32_t *number)
{
    uint32_t sum = 0;
    if (len < 2 || len > 5 || octets[0] != (kind << 4 | (len - 1))) {
        return false;
    }
    for (size_t i = 1; i < len; i++) {
        sum = sum << 8 | octets[i];
    }
    *number = sum;
    return true;
}

/* Gives the property that was listed last limits: as bac_limit. kind: 2 (Unsigned) or 9 (Enumerated), as of its values. */
static inline bac_status bac_limit_number(bac_node *node, unsigned kind, uint32_t least, uint32_t greatest)
{
    uint8_t from[5], to[5];
    size_t from_len = bac_put_number(from, kind, least), to_len = bac_put_number(to, kind, greatest);
    return bac_limit(node, from, from_len, to, to_len);
}

/* A Signed, in the fewest octets: how many they are. */
static inline size_t bac_put_signed(uint8_t out[5], int32_t number)
{
    size_t len = number >= -0x80 && number < 0x80 ? 1 : number >= -0x8000 && number < 0x8000 ? 2 : number >= -0x800000 && number < 0x800000 ? 3 : 4;
    out[0] = (uint8_t)(0x30 | len);
    for (size_t i = 0; i < len; i++) {
        out[1 + i] = (uint8_t)((uint32_t)number >> 8 * (len - 1 - i));
    }
    return 1 + len;
}

/* Whether the octets are a Signed of at most 32 bits, and the number. */
static inline bool bac_take_signed(const uint8_t *octets, size_t len, int32_t *number)
{
    uint32_t sum;
    if (len < 2 || len > 5 || octets[0] != (0x30 | (len - 1))) {
        return false;
    }
    sum = octets[1] & 0x80 ? 0xFFFFFFFFu : 0;
    for (size_t i = 1; i < len; i++) {
        sum = sum << 8 | octets[i];
    }
    memcpy(number, &sum, sizeof sum);
    return true;
}

/* A BitString of at most 32 bits, as status-flags has 4: bit i of the standard is the one of 1u << i in bits. How many octets it has; 0 where the count is
 * above 32. */
static inline size_t bac_put_bits(uint8_t out[7], uint32_t bits, unsigned count)
{
    size_t contents = 1 + (count + 7u) / 8u, at = 1;
    if (count > 32) {
        return 0;
    }
    out[0] = (uint8_t)(0x80 | contents);
    if (contents == 5) {
        out[at++] = 5;
    }
    out[at++] = (uint8_t)((8 - count % 8) % 8);
    memset(out + at, 0, contents - 1);
    for (unsigned i = 0; i < count; i++) {
        if (bits >> i & 1) {
            out[at + i / 8] = (uint8_t)(out[at + i / 8] | 0x80 >> i % 8);
        }
    }
    return at + contents - 1;
}

/* Whether the octets are a BitString of at most 32 bits, those bits, as of bac_put_bits, and how many there are. */
static inline bool bac_take_bits(const uint8_t *octets, size_t len, uint32_t *bits, unsigned *count)
{
    size_t at = len == 7 ? 2 : 1; /* where the number of unused bits is */
    uint32_t sum = 0;
    unsigned number;
    if (len < 2 || len == 6 || len > 7 || octets[0] != (0x80 | (len - at)) || (len == 7 && octets[1] != 5)) {
        return false;
    }
    if (octets[at] > 7 || (len == 2 && octets[at] != 0)) {
        return false;
    }
    number = (unsigned)(len - at - 1) * 8 - octets[at];
    for (unsigned i = 0; i < number; i++) {
        sum |= (uint32_t)(octets[at + 1 + i / 8] >> (7 - i % 8) & 1) << i;
    }
    *bits = sum;
    *count = number;
    return true;
}

/* A text in UTF-8 of at most 4,000 octets as a CharacterString, for a description: how many octets it has; 0 where it is longer, or the room is less than
 * text_len + 5. */
static inline size_t bac_put_text(uint8_t *out, size_t room, const char *text, size_t text_len)
{
    size_t contents = 1 + text_len, at = 1;
    if (text_len > 4000 || room < contents + 4) {
        return 0;
    }
    out[0] = (uint8_t)(0x70 | (contents < 5 ? contents : 5));
    if (contents >= 254) {
        out[at++] = 254;
        out[at++] = (uint8_t)(contents >> 8);
        out[at++] = (uint8_t)contents;
    } else if (contents >= 5) {
        out[at++] = (uint8_t)contents;
    }
    out[at++] = 0;
    for (size_t i = 0; i < text_len; i++) {
        out[at++] = (uint8_t)text[i];
    }
    return at;
}

/* Whether the octets are a CharacterString in UTF-8 of at most 65,534 octets, and its text: it lies in them, and no zero ends it. */
static inline bool bac_take_text(const uint8_t *octets, size_t len, const char **text, size_t *text_len)
{
    size_t contents, head = 1;
    if (len < 2 || octets[0] >> 4 != 7 || (octets[0] & 15) > 5) {
        return false;
    }
    contents = octets[0] & 15u;
    if (contents == 5) {
        contents = octets[1];
        head = 2;
    }
    if (head == 2 && contents == 254) {
        if (len < 4) {
            return false;
        }
        contents = (size_t)octets[2] << 8 | octets[3];
        head = 4;
    }
    if (contents == 0 || len != head + contents || octets[head] != 0) {
        return false;
    }
    *text = (const char *)octets + head + 1;
    *text_len = contents - 1;
    return true;
}

#ifdef __cplusplus
}
#endif
#endif
