/* What one press, release or repeat of a key sends. */
#ifndef CODES_H
#define CODES_H

#include <stdbool.h>
#include <stddef.h>
#include <stdint.h>

enum { SEQUENCE_MAX = 8 };

enum key_event { PRESS, RELEASE, REPEAT };

enum {
    MOD_SHIFT_L = 1,
    MOD_SHIFT_R = 2,
    MOD_CTRL_L = 4,
    MOD_CTRL_R = 8,
    MOD_ALT_L = 16,
    MOD_ALT_R = 32,
    MOD_SHIFT = MOD_SHIFT_L | MOD_SHIFT_R,
    MOD_CTRL = MOD_CTRL_L | MOD_CTRL_R,
    MOD_ALT = MOD_ALT_L | MOD_ALT_R,
    MOD_ALL = MOD_SHIFT | MOD_CTRL | MOD_ALT
};

/* Whether holding this key makes it repeat; the type counts in set 3 only. A
 * key without a code does not. */
bool can_repeat(unsigned set, unsigned key, unsigned type);

/* Writes the bytes of an event to out and returns their number, 0 to 8.
 * set 1 to 3, key 1 to KEY_COUNT, event as above, type a set 3 type, modifiers
 * the MOD_ bits held at this moment, num_lock 0 or 1. Nothing is written if an
 * argument is out of range (-REFUSED_ARGUMENT) or room, the size of out, is
 * below 8 (-REFUSED_ROOM). */
int encode(unsigned set, unsigned key, unsigned event, unsigned type,
           unsigned modifiers, unsigned num_lock, uint8_t *out, size_t room);

#endif
