/* The calls of a dock whose record a caller lends as bytes.
 *
 * Each but power-on first looks whether the bytes are a record, and answers
 * -REFUSED_RECORD if they are not: there are more or fewer of them than in a
 * struct lent_record, or a part is out of its range. Power-on looks at their
 * number alone. Otherwise the calls answer as those of dock.h do. A refused
 * call changes no byte. */
#ifndef LENT_H
#define LENT_H

#include "dock.h"
#include "keys.h"

/* The parts in the order of their bytes, without gaps. Where nothing is said
 * of a part, it is as in struct dock. */
struct lent_record {
    uint8_t map[POSITIONS];
    uint8_t types[KEY_COUNT + 1]; /* by key number from 0 on: any, over 3 is as MAKE */
    uint8_t closed[COLUMNS];      /* contacts that count as closed: any */
    uint8_t counts[POSITIONS];    /* counted scans in a row that showed it otherwise: any, over 2 is as 2 */
    uint8_t held[POSITIONS];      /* by key number from 0 on: any, 0 is not held and all else is */
    uint8_t queue[QUEUE_SIZE];    /* oldest first, then zeros */
    uint8_t queue_length;
    uint8_t repeating;
    uint8_t countdown;
    uint8_t set;
    uint8_t rate;
    uint8_t indicators;
    uint8_t replies[REPLIES_MAX]; /* oldest first, then zeros */
    uint8_t reply_count;
    uint8_t scanning;
    uint8_t waiting;
    uint8_t handover;
    uint8_t resend;
};

int lent_power_on(uint8_t *bytes, size_t size);
int lent_scan(uint8_t *bytes, size_t size, const uint8_t *scan, size_t length);
int lent_swap(uint8_t *bytes, size_t size, const uint8_t *map, size_t length);
int lent_frame(uint8_t *bytes, size_t size, uint32_t frame);
int lent_read(uint8_t *bytes, size_t size);

/* The indicators as the host set them, 0 to 7, and whether scanning is on. */
int lent_indicators(const uint8_t *bytes, size_t size);
int lent_scanning(const uint8_t *bytes, size_t size);

#endif
