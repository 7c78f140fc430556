/* The dock: scans of a key panel in, PS/2 keyboard bytes out.
 *
 * Each call but power-on first looks over the whole record, which may come
 * from anywhere, and answers -REFUSED_RECORD if a part is out of the range
 * noted beside it. Otherwise calls return 0 or more when accepted and minus
 * the number of the refusal when not. A refused call changes nothing. */
#ifndef DOCK_H
#define DOCK_H

#include <stddef.h>
#include <stdint.h>

#include "keys.h"

enum {
    COLUMNS = 18,
    POSITIONS = 144, /* position 8 * column + row */
    QUEUE_SIZE = 16,
    REPLIES_MAX = 3,
    COLUMN_WORDS = 3
};

/* Eighteen bytes, one a column, and six bytes of padding that nothing reads.
 * Words are for speed only: the bytes lie in column order in memory. */
struct columns {
    uint64_t word[COLUMN_WORDS];
};

struct dock {
    uint8_t map[POSITIONS]; /* 0 for no key, or a key: 0 to KEY_COUNT */

    struct columns down;  /* contacts that count as closed: any bits */
    struct columns once;  /* read otherwise in the last counted scan: any */
    struct columns twice; /* and in the one before it too: any */

    uint8_t held[KEY_COUNT / 8 + 1];  /* bit k - 1 for key k: any bits */
    uint8_t types[KEY_COUNT / 4 + 1]; /* two bits a key number from 0 on, its set 3 type: any bits */

    uint8_t queue[QUEUE_SIZE]; /* a ring of key bytes: any bytes */
    uint8_t queue_head;        /* 0 to 15 */
    uint8_t queue_length;      /* 0 to 16 */

    uint8_t replies[REPLIES_MAX]; /* oldest first: any bytes */
    uint8_t reply_count;          /* 0 to 3 */
    uint8_t resend;               /* what FE gets, itself FE at first: any */

    uint8_t set;        /* 1 to 3 */
    uint8_t rate;       /* delay and rate as F3 gives them: 0 to 7F hex */
    uint8_t indicators; /* bit 0 Scroll, 1 Num, 2 Caps: 0 to 7 */
    uint8_t scanning;   /* 0 or 1 */
    uint8_t waiting;    /* 0, or ED, F0, F3, FB, FC, FD hex awaiting a value */
    uint8_t handover;   /* 1 while keys of a removed panel are held: 0 or 1 */
    uint8_t repeating;  /* the key that repeats, or 0: 0 to KEY_COUNT */
    uint8_t countdown;  /* scans until its next repeat: 0 to 240 */
};

void dock_power_on(struct dock *dock);

/* One scan of the contacts, COLUMNS bytes. */
int dock_scan(struct dock *dock, const uint8_t *scan, size_t length);

/* Another panel with its map, POSITIONS bytes. */
int dock_swap(struct dock *dock, const uint8_t *map, size_t length);

/* A frame from the host. */
int dock_host_frame(struct dock *dock, uint32_t frame);

/* The next byte for the host: its kind with the byte added, or GAVE_NOTHING. */
enum { GAVE_NOTHING = 0, GAVE_REPLY = 0x100, GAVE_KEY_BYTE = 0x200 };
int dock_read(struct dock *dock);

#endif
