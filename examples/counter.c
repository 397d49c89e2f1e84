/*
 * A repair counter's use of Paneglove, once for each profile: clear a 4 by 4 board, take packets in, list the table, show it to outsiders, follow
 * find until nothing is held, and list it again. At the end a packet in A gives way to one in B.
 * It prints each answer and exits 1 if anything is not as promised.
 *
 *     tools/archive
 *     cc -std=c99 -Wall -Wextra -pedantic -Iinclude examples/counter.c target/staticlib/libpaneglove.a -o target/counter
 *     target/counter
 */
#include <inttypes.h>
#include <stdio.h>
#include <stdlib.h>
#include <string.h>

#include "paneglove.h"

#define WIDTH 4
#define HEIGHT 4
#define DEPTH 2
#define BEFORE 8
#define NODE_SLOTS PANEGLOVE_SLOTS(1, 1, DEPTH)
#define SLOTS PANEGLOVE_SLOTS(WIDTH, HEIGHT, DEPTH)
#define TABLE PANEGLOVE_TABLE_BYTES(WIDTH, HEIGHT, DEPTH)
#define LENGTH (BEFORE + TABLE)

struct trip {
    uint8_t source;
    uint8_t destination;
    const char *payload;
};

static const struct trip trips[] = {
    {PANEGLOVE_NODE(0, 0), PANEGLOVE_NODE(3, 3), "packet 0"}, {PANEGLOVE_NODE(3, 3), PANEGLOVE_NODE(0, 0), "packet 1"},
    {PANEGLOVE_NODE(0, 3), PANEGLOVE_NODE(3, 0), "packet 2"}, {PANEGLOVE_NODE(3, 0), PANEGLOVE_NODE(0, 3), "packet 3"},
    {PANEGLOVE_NODE(1, 2), PANEGLOVE_NODE(1, 2), "packet 4"},
};

#define TRIPS (sizeof trips / sizeof trips[0])

/* A profile, and the head lines of its board's listing before and after the trips. */
struct board {
    uint32_t profile;
    const char *before;
    const char *after;
};

static const struct board boards[] = {
    {PANEGLOVE_PROFILE_FULL, "grid 4 4 depth 2 taken 5 delivered 0\n", "grid 4 4 depth 2 taken 5 delivered 5\n"},
    {PANEGLOVE_PROFILE_ADAPT, "grid 4 4 depth 2 taken 5 delivered 0 profile 1\n", "grid 4 4 depth 2 taken 5 delivered 5 profile 1\n"},
    {PANEGLOVE_PROFILE_OBLIVIOUS, "grid 4 4 depth 2 taken 5 delivered 0 profile 2\n", "grid 4 4 depth 2 taken 5 delivered 5 profile 2\n"},
};

#define BOARDS (sizeof boards / sizeof boards[0])

static uint8_t slice[LENGTH];
static uint8_t earlier[LENGTH];
static uint8_t out[TABLE];
static uint8_t text[PANEGLOVE_LISTING_ROOM];
static int broken;

static void expect(int holds, const char *promise) {
    if (!holds) {
        printf("NOT AS PROMISED: %s\n", promise);
        broken = 1;
    }
}

static void remember(void) {
    memcpy(earlier, slice, LENGTH);
}

static int unchanged(void) {
    return memcmp(earlier, slice, LENGTH) == 0;
}

static int all_are(uint8_t byte, const uint8_t *bytes, size_t length) {
    size_t i;
    for (i = 0; i < length; i++) {
        if (bytes[i] != byte) {
            return 0;
        }
    }
    return 1;
}

static int all_zero(const uint8_t *bytes, size_t length) {
    return all_are(0, bytes, length);
}

/* How many slots are empty in the queue that a slot is one of: a node has its waiting slot, then its A slots, then its B slots. */
static uint32_t empty_in_queue_of(uint32_t slot) {
    size_t place = slot % NODE_SLOTS, first = slot - place, length = 1, k;
    uint32_t empty = 0;
    if (place > 0) {
        first += place <= DEPTH ? 1 : 1 + DEPTH;
        length = DEPTH;
    }
    for (k = first; k < first + length; k++) {
        empty += all_zero(slice + BEFORE + 16 * k, 16);
    }
    return empty;
}

static unsigned distance(uint8_t a, uint8_t b) {
    return (unsigned)(abs(a % 16 - b % 16) + abs(a / 16 - b / 16));
}

static uint32_t clear(uint32_t profile) {
    uint32_t number = paneglove_clear(slice, LENGTH, WIDTH, HEIGHT, DEPTH, profile);
    printf("clear: %" PRIu32 "\n", number);
    return number;
}

static void clear_board(uint32_t profile) {
    memset(slice, 238, LENGTH);
    remember();
    expect(clear(PANEGLOVE_PROFILE_OBLIVIOUS + 1) == PANEGLOVE_SIZES, "there is no profile 3");
    expect(unchanged(), "a refused clear changes no byte");
    expect(clear(profile) == PANEGLOVE_ACCEPTED, "a 4 by 4 board is cleared");
    expect(slice[LENGTH - 13] == profile, "the trailer holds the profile");
}

static paneglove_payload payload_of(const char *text) {
    paneglove_payload payload;
    memcpy(payload.bytes, text, sizeof payload.bytes);
    return payload;
}

static paneglove_taken take_in(uint8_t source, uint8_t destination, const char *payload) {
    paneglove_taken a = paneglove_take_in(slice, LENGTH, source, destination, payload_of(payload));
    printf("take in: %" PRIu32 ", slot %" PRIu32 ", serial %" PRIu32 ", left %" PRIu32 "\n", a.number, a.slot, a.serial, a.left);
    return a;
}

static void take_in_all(void) {
    size_t i;
    paneglove_taken a;
    for (i = 0; i < TRIPS; i++) {
        a = take_in(trips[i].source, trips[i].destination, trips[i].payload);
        expect(a.number == PANEGLOVE_ACCEPTED && a.serial == i, "packets are taken in, in the order of their serials");
        expect(a.left == 0, "a packet taken in leaves no waiting slot");
    }
    remember();
    a = take_in(trips[0].source, trips[0].destination, "too many");
    expect(a.number == PANEGLOVE_NO_ROOM && a.slot == 0 && a.serial == 0 && a.left == 0, "a waiting slot holds one packet");
    a = take_in(PANEGLOVE_NODE(0, 1), PANEGLOVE_NODE(WIDTH, 0), "off grid");
    expect(a.number == PANEGLOVE_OUT_OF_RANGE && a.left == 0, "a destination off the grid is refused");
    expect(unchanged(), "a refusal changes no byte");
}

static paneglove_read read_payload(uint32_t slot) {
    paneglove_read a = paneglove_read_payload(slice, LENGTH, slot);
    printf("read payload: %" PRIu32 ", '%.*s'\n", a.number, a.number == PANEGLOVE_ACCEPTED ? 8 : 0, (const char *)a.payload);
    return a;
}

static void read_payloads(void) {
    paneglove_read a = read_payload(0);
    expect(a.number == PANEGLOVE_ACCEPTED && memcmp(a.payload, trips[0].payload, 8) == 0, "the payload is the one handed in");
    a = read_payload(1);
    expect(a.number == PANEGLOVE_EMPTY && all_zero(a.payload, 8), "an empty slot has no payload");
    a = read_payload((uint32_t)SLOTS);
    expect(a.number == PANEGLOVE_OUT_OF_RANGE && all_zero(a.payload, 8), "there is no slot past the last");
}

static size_t lines_in(const uint8_t *bytes, size_t length) {
    size_t i, lines = 0;
    for (i = 0; i < length; i++) {
        lines += bytes[i] == '\n';
    }
    return lines;
}

static paneglove_listed list(size_t room) {
    paneglove_listed a = paneglove_list(slice, LENGTH, text, room);
    printf("list: %" PRIu32 ", %lu bytes\n%.*s", a.number, (unsigned long)a.length, (int)a.length, (const char *)text);
    return a;
}

static void list_table(const char *head, size_t held) {
    paneglove_listed a;
    memset(text, 170, sizeof text);
    remember();
    a = list(sizeof text - 1);
    expect(a.number == PANEGLOVE_BUFFER && a.length == 0, "a listing needs all of its room");
    expect(all_are(170, text, sizeof text), "a refused listing writes nothing");
    a = list(sizeof text);
    expect(a.number == PANEGLOVE_ACCEPTED && a.length <= sizeof text, "with its room a listing is written");
    expect(memcmp(text, head, strlen(head)) == 0, "the head line tells the board and its counts");
    expect(lines_in(text, a.length) == held + 2, "there is one line for each packet held, with one before and one after them");
    expect(all_are(170, text + a.length, sizeof text - a.length), "nothing is written past a listing");
    expect(unchanged(), "a listing changes nothing of the table");
}

static paneglove_copied copy_outward(size_t out_length) {
    paneglove_copied a = paneglove_copy_outward(slice, LENGTH, out, out_length);
    printf("copy outward: %" PRIu32 ", place %" PRIu32 "\n", a.number, a.place);
    return a;
}

static void show_outsiders(void) {
    const uint8_t *table = slice + BEFORE;
    size_t i;
    memset(out, 170, TABLE);
    remember();
    expect(copy_outward(TABLE - 1).number == PANEGLOVE_BUFFER, "the second buffer has exactly the table's length");
    expect(all_are(170, out, TABLE), "a refused copy writes nothing");
    expect(copy_outward(TABLE).number == PANEGLOVE_ACCEPTED, "a table that passes is copied");
    for (i = 0; i < SLOTS; i++) {
        expect(memcmp(out + 16 * i, table + 16 * i, 8) == 0, "all but payloads is shown");
        expect(all_zero(out + 16 * i + 8, 8), "no payload is shown");
    }
    expect(memcmp(out + 16 * SLOTS, table + 16 * SLOTS, 16) == 0, "the trailer is shown");
    expect(unchanged(), "the copy changes nothing of the table");
}

static paneglove_moved make_move(uint32_t slot, uint32_t code) {
    paneglove_moved a = paneglove_make_move(slice, LENGTH, slot, code);
    printf("move of slot %" PRIu32 " by code %" PRIu32 ": %" PRIu32 ", slot %" PRIu32 ", left %" PRIu32 "\n", slot, code, a.number, a.slot, a.left);
    return a;
}

static int refused_by(uint32_t number, paneglove_moved a) {
    return a.number == number && a.slot == 0 && all_zero(a.packet, 16) && a.left == 0;
}

static void refuse_moves(void) {
    remember();
    expect(refused_by(PANEGLOVE_OUT_OF_RANGE, make_move(0, 8)), "there is no code 8");
    expect(refused_by(PANEGLOVE_EMPTY, make_move(1, PANEGLOVE_ENTER)), "an empty slot has no moves");
    expect(refused_by(PANEGLOVE_NOT_OFFERED, make_move(0, PANEGLOVE_RIGHT)), "a waiting packet enters first");
    expect(unchanged(), "a refusal changes no byte");
}

/* From (3,0) to (0,3) the hop to the left is one that only the full profile has. Answers how many moves were accepted. */
static unsigned try_left(uint32_t profile) {
    paneglove_moved a = make_move(3 * NODE_SLOTS, PANEGLOVE_ENTER);
    expect(a.number == PANEGLOVE_ACCEPTED, "a waiting packet enters");
    a = make_move(a.slot, PANEGLOVE_LEFT);
    if (profile == PANEGLOVE_PROFILE_FULL) {
        expect(a.number == PANEGLOVE_ACCEPTED, "a hop that the profile has is made");
        return 2;
    }
    expect(refused_by(PANEGLOVE_NOT_OFFERED, a), "a hop that the profile doesn't have is refused");
    return 1;
}

/* From (3,0) a packet to (0,3) is offered the hop to the left in A, and one to (0,0) the same hop in B. */
static void give_way(void) {
    uint32_t waiting = 3 * NODE_SLOTS, in_a, in_b;
    expect(clear(PANEGLOVE_PROFILE_FULL) == PANEGLOVE_ACCEPTED, "a board is cleared again");
    take_in(PANEGLOVE_NODE(3, 0), PANEGLOVE_NODE(0, 3), "dynamic.");
    in_a = make_move(waiting, PANEGLOVE_ENTER).slot;
    take_in(PANEGLOVE_NODE(3, 0), PANEGLOVE_NODE(0, 0), "static..");
    in_b = make_move(waiting, PANEGLOVE_ENTER).slot;
    remember();
    expect(refused_by(PANEGLOVE_GIVES_WAY, make_move(in_a, PANEGLOVE_LEFT)), "a packet in A gives way to one in B that goes over the same link");
    expect(unchanged(), "a refusal changes no byte");
    expect(make_move(in_b, PANEGLOVE_LEFT).number == PANEGLOVE_ACCEPTED, "the packet in B goes first");
    expect(make_move(in_a, PANEGLOVE_LEFT).number == PANEGLOVE_ACCEPTED, "once it has gone, the packet in A goes too");
}

/* A packet handed out is one of the trips, by its serial; it has been delivered once, after as many hops as its distance. */
static void receive(const uint8_t *packet, int *delivered) {
    const struct trip *trip;
    uint32_t serial = packet[4] + 256u * packet[5] + 65536u * packet[6] + 16777216u * packet[7];
    printf("delivered: serial %" PRIu32 ", %d hops, '%.8s'\n", serial, packet[3], (const char *)packet + 8);
    if (serial >= TRIPS) {
        expect(0, "only packets taken in are delivered");
        return;
    }
    trip = &trips[serial];
    delivered[serial]++;
    expect(packet[0] == 1 && packet[1] == trip->source && packet[2] == trip->destination, "a packet is delivered where it was bound for");
    expect(packet[3] == distance(trip->source, trip->destination), "a packet makes as many hops as its distance");
    expect(memcmp(packet + 8, trip->payload, 8) == 0, "a packet keeps its payload");
}

/* After so many moves since the packets were taken in. */
static void follow_find(unsigned moves) {
    int delivered[TRIPS] = {0};
    unsigned most = 0;
    size_t i;
    for (i = 0; i < TRIPS; i++) {
        most += 3 + distance(trips[i].source, trips[i].destination);
    }
    for (;;) {
        paneglove_found f = paneglove_find(slice, LENGTH);
        paneglove_moved a;
        printf("find: %" PRIu32 ", slot %" PRIu32 ", code %" PRIu32 "\n", f.number, f.slot, f.code);
        if (f.number != PANEGLOVE_ACCEPTED) {
            expect(f.number == PANEGLOVE_NOTHING_HELD, "find ends with 11");
            break;
        }
        a = make_move(f.slot, f.code);
        moves++;
        expect(a.number == PANEGLOVE_ACCEPTED, "a move that was found is accepted");
        if (f.code == PANEGLOVE_DELIVER) {
            expect(a.slot == 0, "a delivery answers slot 0");
            expect(a.left == empty_in_queue_of(f.slot), "a delivery tells how many slots are then empty in the queue that it left");
            receive(a.packet, delivered);
        } else {
            expect(a.left == empty_in_queue_of(a.slot), "a move tells how many slots are then empty in the queue that it led to");
            expect(all_zero(a.packet, 16), "only a delivery hands out a packet");
        }
        if (moves > most) {
            expect(0, "no more moves are accepted than the sum at the start");
            break;
        }
    }
    printf("%u moves, of at most %u\n", moves, most);
    for (i = 0; i < TRIPS; i++) {
        expect(delivered[i] == 1, "each packet is delivered once");
    }
}

static uint32_t check(const uint8_t *bytes, size_t length) {
    paneglove_checked a = paneglove_full_check(bytes, length);
    printf("full check: %" PRIu32 ", place %" PRIu32 "\n", a.number, a.place);
    return a.number;
}

static void use(const struct board *board) {
    clear_board(board->profile);
    take_in_all();
    expect(check(slice, LENGTH) == PANEGLOVE_ACCEPTED, "the table passes the full check");
    read_payloads();
    list_table(board->before, TRIPS);
    show_outsiders();
    refuse_moves();
    follow_find(try_left(board->profile));
    list_table(board->after, 0);
    expect(check(slice, LENGTH) == PANEGLOVE_ACCEPTED, "the table still passes");
    expect(all_zero(slice + BEFORE, 16 * SLOTS), "a slot left by a packet is 16 zeros");
    memset(earlier, 238, BEFORE);
    expect(memcmp(slice, earlier, BEFORE) == 0, "bytes before the table are not written");
}

int main(void) {
    size_t i;
    for (i = 0; i < BOARDS; i++) {
        use(&boards[i]);
    }
    give_way();
    expect(check(NULL, 0) == PANEGLOVE_TRAILER, "no bytes have no trailer");
    return broken;
}
