/* A stack of its own, on which something is done to see how deep it goes. */

#ifndef OWN_STACK_H
#define OWN_STACK_H

#include <stddef.h>

/* Where something does not hold, says what is otherwise, and ends. */
void hold_or_end(int holds, const char *otherwise);

/* Fills the stack with a known byte, and does something on it; gives how many bytes there are from the lowest changed one up to the top.
 * This is done twice, with two known bytes, and the larger number given, since a byte that is changed to the known one is not seen. What
 * has to be done before, each time, is done on the usual stack. */
size_t changed_on_own_stack(void (*before)(void), void (*what_is_done)(void));

#endif
