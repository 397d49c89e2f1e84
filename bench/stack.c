/*
 * The stack that each call needs: the call runs on a stack of its own that was filled with one byte beforehand, and the bytes that are no
 * longer that one are counted from the deepest on. What an empty call takes is taken off; the room for a call's answer, which is in its
 * caller's frame, is counted.
 */
#define _GNU_SOURCE
#include "paneglove.h"

#include <stdio.h>
#include <stdlib.h>
#include <string.h>
#include <ucontext.h>

enum { STACK = 1 << 20, TABLE = 61456, MARK = 0xa5 };

static uint8_t table[TABLE];
static uint8_t copy[TABLE];
static uint8_t text[PANEGLOVE_LISTING_ROOM];
static uint8_t *stack;
static ucontext_t here, there;
static uint32_t slot, code;

static void run_nothing(void) {}

static void run_clear(void) { paneglove_clear(table, TABLE, 16, 16, 7, PANEGLOVE_PROFILE_FULL); }

static void run_take_in(void) {
    paneglove_payload payload = {{1, 2, 3, 4, 5, 6, 7, 8}};
    paneglove_take_in(table, TABLE, PANEGLOVE_NODE(0, 0), PANEGLOVE_NODE(15, 15), payload);
}

static void run_make_move(void) { paneglove_make_move(table, TABLE, slot, code); }

static void run_read_payload(void) { paneglove_read_payload(table, TABLE, 0); }

static void run_full_check(void) { paneglove_full_check(table, TABLE); }

static void run_find(void) { paneglove_find(table, TABLE); }

static void run_copy_outward(void) { paneglove_copy_outward(table, TABLE, copy, TABLE); }

static void run_list(void) { paneglove_list(table, TABLE, text, sizeof text); }

/* How many bytes of the stack a run has touched. */
static size_t touched(void (*run)(void)) {
    size_t free_bytes = 0;
    memset(stack, MARK, STACK);
    if (getcontext(&there) != 0) {
        perror("getcontext");
        exit(2);
    }
    there.uc_stack.ss_sp = stack;
    there.uc_stack.ss_size = STACK;
    there.uc_link = &here;
    makecontext(&there, run, 0);
    if (swapcontext(&here, &there) != 0) {
        perror("swapcontext");
        exit(2);
    }
    while (free_bytes < STACK && stack[free_bytes] == MARK)
        free_bytes++;
    return STACK - free_bytes;
}

static void say(const char *call, void (*run)(void), size_t frame) {
    printf("%-20s%8zu\n", call, touched(run) - frame);
}

/* A move that is accepted, which the table's bytes tell. */
static void say_move(const char *call, uint32_t from, uint32_t by, size_t frame) {
    memcpy(copy, table, TABLE);
    slot = from;
    code = by;
    say(call, run_make_move, frame);
    if (memcmp(copy, table, TABLE) == 0) {
        fprintf(stderr, "%s: refused\n", call);
        exit(2);
    }
}

/* The slot that the packet of a slot goes to. */
static uint32_t moved(uint32_t from, uint32_t by) { return paneglove_make_move(table, TABLE, from, by).slot; }

/* The slot of a packet that has been taken in and has entered. */
static uint32_t entered(uint8_t source, uint8_t destination) {
    paneglove_payload payload = {{0}};
    uint32_t waiting = paneglove_take_in(table, TABLE, source, destination, payload).slot;
    return moved(waiting, PANEGLOVE_ENTER);
}

/*
 * Moves of each kind; the first is of the packet that run_take_in took in. The packet in B has arrived, so the rule offers it no hop, and a hop left
 * from A at its node need not give way.
 */
static void say_moves(size_t frame) {
    uint32_t rising = entered(PANEGLOVE_NODE(1, 1), PANEGLOVE_NODE(15, 15));
    uint32_t risen = moved(entered(PANEGLOVE_NODE(3, 3), PANEGLOVE_NODE(4, 2)), PANEGLOVE_RIGHT);
    uint32_t arrived = entered(PANEGLOVE_NODE(5, 5), PANEGLOVE_NODE(5, 5));
    uint32_t turning = entered(PANEGLOVE_NODE(5, 5), PANEGLOVE_NODE(4, 6));
    say_move("move: enter", 0, PANEGLOVE_ENTER, frame);
    say_move("move: hop", rising, PANEGLOVE_RIGHT, frame);
    say_move("move: hop past B", turning, PANEGLOVE_LEFT, frame);
    say_move("move: change", risen, PANEGLOVE_CHANGE, frame);
    say_move("move: delivery", arrived, PANEGLOVE_DELIVER, frame);
}

int main(void) {
    size_t frame;
    stack = malloc(STACK);
    if (stack == NULL)
        return 2;
    frame = touched(run_nothing);
    printf("call             stack bytes\n");
    say("clear", run_clear, frame);
    say("take in", run_take_in, frame);
    say("read payload", run_read_payload, frame);
    say_moves(frame);
    say("full check", run_full_check, frame);
    say("find", run_find, frame);
    say("outward copy", run_copy_outward, frame);
    say("list", run_list, frame);
    free(stack);
    return 0;
}
