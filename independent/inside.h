/* What the parts of the dock share among themselves. */
#ifndef INSIDE_H
#define INSIDE_H

#include <stdbool.h>

#include "codes.h"
#include "dock.h"

enum { DEFAULT_RATE = 0x2B };

static inline bool is_held(const struct dock *dock, unsigned key)
{
    return dock->held[(key - 1) / 8] >> (key - 1) % 8 & 1;
}

static inline void set_held(struct dock *dock, unsigned key, bool held)
{
    uint8_t bit = (uint8_t)(1u << (key - 1) % 8);
    if (held)
        dock->held[(key - 1) / 8] |= bit;
    else
        dock->held[(key - 1) / 8] &= (uint8_t)~bit;
}

static inline unsigned get_type(const struct dock *dock, unsigned key)
{
    return dock->types[key / 4] >> key % 4 * 2 & 3;
}

static inline void set_type(struct dock *dock, unsigned key, unsigned type)
{
    uint8_t *four = &dock->types[key / 4];
    unsigned shift = key % 4 * 2;
    *four = (uint8_t)((*four & ~(3u << shift)) | type << shift);
}

/* dock.c */
bool is_in_range(const struct dock *dock);
void reset_all_but_map(struct dock *dock);
void set_default_types(struct dock *dock);
void continue_handover(struct dock *dock);

/* scan.c: what a key's release leaves, in a scan or in a handover. */
void let_go(struct dock *dock, unsigned key);

/* host.c */
bool takes_value(unsigned command);

/* queue.c: encode_now gives a key's code as set, type, modifiers and Num Lock
 * stand; push_sequence takes it whole, or marks the queue overrun. */
size_t encode_now(const struct dock *dock, unsigned key, enum key_event event,
                  uint8_t sequence[SEQUENCE_MAX]);
bool fits(const struct dock *dock, size_t length);
void push_sequence(struct dock *dock, const uint8_t *sequence, size_t length);
uint8_t pop_key_byte(struct dock *dock);

#endif
