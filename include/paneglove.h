/*
 * Paneglove: a packet table for one rectangular grid, document 01's seven calls on it, and its listing.
 *
 * tools/archive proves the calls and writes target/staticlib/libpaneglove.a, x86-64 code for Linux that needs C's memset and
 * nothing else. Its functions are those of crates/paneglove_c/src/lib.rt, each with its contract.
 *
 * A slice is a pointer and a length in bytes; the table is the slice's last part, and bytes before it are neither read nor written. What the
 * proofs ask of a caller is what a slice is: the pointer is good for that many bytes, to be read and, where it is not const, written, and
 * nothing else writes to them while the call runs. With length 0 the pointer isn't used, and may be null. Everything else is answered: no
 * content of a slice and no number is out of bounds.
 *
 * Each answer has a number: 0 for accepted, else the first refusal that is due, in the order named at the call. A refusal changes no byte of
 * any slice, and its other fields are zero unless named.
 */
#ifndef PANEGLOVE_H
#define PANEGLOVE_H

#include <stddef.h>
#include <stdint.h>

#ifdef __cplusplus
extern "C" {
#endif

enum {
    PANEGLOVE_ACCEPTED = 0,
    PANEGLOVE_TRAILER = 1,       /* the trailer is not good */
    PANEGLOVE_OUT_OF_RANGE = 2,  /* no such slot, no such code, or a coordinate off the grid */
    PANEGLOVE_EMPTY = 3,         /* the named slot is empty */
    PANEGLOVE_SPOILED = 4,       /* the named slot is spoiled */
    PANEGLOVE_NOT_OFFERED = 5,   /* the rule doesn't offer the move */
    PANEGLOVE_NO_ROOM = 6,       /* the target queue, or the source's waiting slot, has no empty slot */
    PANEGLOVE_ALL_TAKEN = 7,     /* 4,294,967,295 packets have been taken in */
    PANEGLOVE_SIZES = 8,         /* width, height, depth or profile is not accepted */
    PANEGLOVE_BUFFER = 9,        /* a buffer of the wrong length */
    PANEGLOVE_FAULT = 10,        /* the full check failed; the place is named */
    PANEGLOVE_NOTHING_HELD = 11, /* no slot is held */
    PANEGLOVE_GIVES_WAY = 12     /* left or down in A, while a good packet in the node's B queue is offered the same */
};

/* The codes of moves. */
enum {
    PANEGLOVE_ENTER = 1,
    PANEGLOVE_RIGHT = 2, /* x + 1 */
    PANEGLOVE_LEFT = 3,  /* x - 1 */
    PANEGLOVE_UP = 4,    /* y + 1 */
    PANEGLOVE_DOWN = 5,  /* y - 1 */
    PANEGLOVE_CHANGE = 6,
    PANEGLOVE_DELIVER = 7
};

/* A board's profile: which of the rule's moves it has. */
enum {
    PANEGLOVE_PROFILE_FULL = 0,     /* all of them */
    PANEGLOVE_PROFILE_ADAPT = 1,    /* all but left and down in A */
    PANEGLOVE_PROFILE_OBLIVIOUS = 2 /* one hop only: in A right, else up; in B left, else down; and in A no change at the destination */
};

/* A node as source or destination: x and y from 0 to 15. */
#define PANEGLOVE_NODE(x, y) ((uint8_t)((x) + 16 * (y)))

/* The number of slots, and a table's length in bytes; the depth is the one used, from 1 to 7. A table has at most 61,456 bytes. */
#define PANEGLOVE_SLOTS(width, height, depth) ((size_t)(width) * (size_t)(height) * (1 + 2 * (size_t)(depth)))
#define PANEGLOVE_TABLE_BYTES(width, height, depth) (16 * PANEGLOVE_SLOTS(width, height, depth) + 16)

/* A payload handed in, by value. */
typedef struct paneglove_payload {
    uint8_t bytes[8];
} paneglove_payload;

typedef struct paneglove_taken {
    uint32_t number;
    uint32_t slot;
    uint32_t serial;
    uint32_t left; /* the slots then empty in the queue that the packet went into */
} paneglove_taken;

typedef struct paneglove_moved {
    uint32_t number;
    uint32_t slot;
    uint8_t packet[16];
    uint32_t left; /* the slots then empty in the queue that the packet went into; on delivery, in the queue that it left */
} paneglove_moved;

typedef struct paneglove_read {
    uint32_t number;
    uint8_t payload[8];
} paneglove_read;

typedef struct paneglove_checked {
    uint32_t number;
    uint32_t place;
} paneglove_checked;

typedef struct paneglove_found {
    uint32_t number;
    uint32_t slot;
    uint32_t code;
} paneglove_found;

typedef struct paneglove_copied {
    uint32_t number;
    uint32_t place;
} paneglove_copied;

typedef struct paneglove_listed {
    uint32_t number;
    size_t length;
} paneglove_listed;

/* The buffer that a listing needs, whatever the slice. */
#define PANEGLOVE_LISTING_ROOM 226637

/*
 * Makes the slice's last part a fresh table. Width and height are 1 to 16, depth 1 to 7, and depth 0 means 5; the profile is 0 to 2.
 * Refuses by 8 (sizes or profile), then 9 (the slice is shorter than the table). Answers nothing beside 0.
 */
uint32_t paneglove_clear(uint8_t *slice, size_t length, uint32_t width, uint32_t height, uint32_t depth, uint32_t profile);

/*
 * Puts a packet into the waiting slot of its source.
 * Refuses by 1 (trailer), 2 (source or destination off the grid), 7 (all serials are given out), then 6 (the waiting slot is held). Answers
 * beside 0 the slot used, the packet's serial, which is the old count of packets taken in, and how many slots of its queue are then empty: 0,
 * for that queue is the one waiting slot.
 */
paneglove_taken paneglove_take_in(uint8_t *slice, size_t length, uint8_t source, uint8_t destination, paneglove_payload payload);

/*
 * Makes the proposed move of the packet in a slot, by the rule in the board's profile.
 * Refuses by 1 (trailer), 2 (no such slot, or no such code), 3 (the slot is empty), 4 (it is spoiled), 5 (the rule doesn't offer the move),
 * 12 (left or down in A, while the node's B queue holds a good packet for which the rule offers the same code, whether or not that packet has
 * room), then 6 (the target queue has no empty slot). Answers beside 0 the packet's new slot, a packet of zeros, and how many slots of the target
 * queue are then empty; a delivery answers slot 0, the packet's 16 bytes, and how many slots are then empty in the queue that it left. A spoiled
 * slot is not empty.
 */
paneglove_moved paneglove_make_move(uint8_t *slice, size_t length, uint32_t slot, uint32_t code);

/*
 * Reads the payload of the packet in a slot.
 * Refuses by 1 (trailer), 2 (no such slot), 3 (it is empty), then 4 (it is spoiled). Answers beside 0 the eight bytes.
 */
paneglove_read paneglove_read_payload(const uint8_t *slice, size_t length, uint32_t slot);

/*
 * Checks the whole table.
 * Refuses by 1 (trailer), then 10 with the place of its first fault: the lowest spoiled slot; else the lowest held slot whose serial a lower
 * held slot has; else the number of slots, where the counts disagree. Answers nothing beside 0.
 */
paneglove_checked paneglove_full_check(const uint8_t *slice, size_t length);

/*
 * Finds the lowest slot, and for it the lowest code, whose move would be accepted.
 * Refuses by 1 (trailer), 10 (the full check failed; slot is the place), then 11 (no slot is held). Answers beside 0 the slot and the code.
 */
paneglove_found paneglove_find(const uint8_t *slice, size_t length);

/*
 * Writes the table into a second buffer, with the payload of each held slot zero.
 * The two buffers must not overlap.
 * Refuses by 1 (trailer), 10 (the full check failed; the place is named), then 9 (out_length is not exactly the table's length). Answers
 * nothing beside 0.
 */
paneglove_copied paneglove_copy_outward(const uint8_t *slice, size_t length, uint8_t *out, size_t out_length);

/*
 * Writes the table's listing at the start of a second buffer, as ASCII text without a zero byte at its end.
 * The two buffers must not overlap.
 * Refuses by 9 (out_length is less than PANEGLOVE_LISTING_ROOM). Answers beside 0 the text's length; the text of a table that is refused is
 * the refusal, such as `refused 10 at 3`.
 */
paneglove_listed paneglove_list(const uint8_t *slice, size_t length, uint8_t *out, size_t out_length);

#ifdef __cplusplus
}
#endif

#endif
