/* The keys: their numbers, make codes and set 3 types. */
#ifndef KEYS_H
#define KEYS_H

#include <stdint.h>

enum {
    KEY_SHIFT_L = 42,
    KEY_SHIFT_R = 53,
    KEY_CTRL_L = 54,
    KEY_ALT_L = 55,
    KEY_ALT_R = 57,
    KEY_CTRL_R = 58,
    KEY_INS = 59, /* the ten keys INS to RIGHT follow SHIFT and Num Lock */
    KEY_RIGHT = 68,
    KEY_PAD_SLASH = 70,
    KEY_PRINT = 99,
    KEY_PAUSE = 101,
    KEY_APP = 104, /* the keys behind this one are media keys */
    KEY_COUNT = 125
};

/* Set 3 key types, in the order of the commands F7 to FA. */
enum { TYPEMATIC, MAKE_BREAK, MAKE, TYPEMATIC_MAKE_BREAK };

/* A prefixed code is written as one number: E0 38 is 0xE038. */
enum { PREFIX = 0xE000 };

struct key {
    uint16_t make[3]; /* in sets 1, 2 and 3; 0 for no code */
    uint8_t type;     /* default type in set 3 */
};

/* Indexed by key number; entry 0 is unused. */
extern const struct key keys[KEY_COUNT + 1];

/* PAUSE without CTRL sends these bytes; its row in the table has the others. */
extern const uint8_t pause_set1[6];
extern const uint8_t pause_set2[8];

/* What PRINT sends in sets 1 and 2 while an ALT is held. */
enum { ALT_PRINT_SET1 = 0x54, ALT_PRINT_SET2 = 0x84 };

/* The key with this make code in this set (1 to 3), or 0 if there is none.
 * The two ALT codes of PRINT count as its own. Code 0 is no key's. */
unsigned find_key(unsigned set, unsigned code);

#endif
