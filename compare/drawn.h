/* What comparisons draw at random. Nothing is printed here, and the same seed
 * draws the same on every machine. */
#ifndef DRAWN_H
#define DRAWN_H

#include <stdbool.h>
#include <stddef.h>
#include <stdint.h>

#include "../independent/dock.h"
#include "../independent/keys.h"

#define LENGTH(array) (sizeof(array) / sizeof(array)[0])

/* Chance. No expression may draw twice where the order would tell, as that
 * order is the compiler's to choose. */
void begin_drawing(uint64_t seed);
uint64_t random_bits(void);
unsigned below(unsigned bound);
unsigned between(unsigned low, unsigned high); /* both of them included */
bool chance(unsigned percent);

/* Panel maps. The plain one has all keys but the media keys, the full one has
 * all. A wrong one has a number that is no key's, a key twice, or both. */
void make_plain_map(uint8_t map[POSITIONS]);
void make_full_map(uint8_t map[POSITIONS]);
void draw_full_map(uint8_t map[POSITIONS]); /* all keys, in any order */
void draw_map(uint8_t map[POSITIONS]);
void draw_wrong_map(uint8_t map[POSITIONS]);

unsigned draw_media_key(void);

/* Host bytes: the frame of one, and a command that takes a value. */
unsigned frame_of(unsigned byte);
unsigned draw_valued_command(void);

#endif
