/* A stack of its own: see own_stack.h. */

#include "own_stack.h"

#include <stdint.h>
#include <stdio.h>
#include <stdlib.h>
#include <string.h>
#include <ucontext.h>

/* The lower half is a guard: what comes there does no harm, and is counted. */
enum { GUARD = 1 << 16, STACK = 1 << 16, ROOM = 1024 };

static uint8_t own_stack[GUARD + STACK];
static void (*to_be_done)(void);

/* To come here and to leave takes some of the stack too, from its top down. That lies within the room, above all that is compared. The
 * compiler cannot know which byte of the room is used, and so leaves none out. */
static void do_below_room(void)
{
    static volatile size_t used = 0;
    volatile uint8_t room[ROOM];
    room[used] = 0;
    to_be_done();
    (void)room[used];
}

void hold_or_end(int holds, const char *otherwise)
{
    if (!holds) {
        fprintf(stderr, "stack: %s\n", otherwise);
        exit(1);
    }
}

static void switch_to_own_stack(void)
{
    static ucontext_t here, there;
    hold_or_end(getcontext(&there) == 0, "getcontext fails");
    there.uc_stack.ss_sp = own_stack;
    there.uc_stack.ss_size = sizeof own_stack;
    there.uc_link = &here;
    makecontext(&there, do_below_room, 0);
    hold_or_end(swapcontext(&here, &there) == 0, "swapcontext fails");
}

/* Had less than the room been changed, it would not be the stack that was used; had all been, it would have been too small. */
static size_t changed_in(uint8_t filled_with)
{
    size_t kept = 0;
    memset(own_stack, filled_with, sizeof own_stack);
    switch_to_own_stack();
    while (kept < sizeof own_stack && own_stack[kept] == filled_with)
        kept++;
    hold_or_end(kept < sizeof own_stack - ROOM, "the stack of its own was not used");
    hold_or_end(kept > 0, "the stack of its own was too small");
    return sizeof own_stack - kept;
}

size_t changed_on_own_stack(void (*before)(void), void (*what_is_done)(void))
{
    to_be_done = what_is_done;
    before();
    size_t once = changed_in(0xA5);
    before();
    size_t again = changed_in(0x3C);
    return once > again ? once : again;
}
