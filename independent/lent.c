#include "lent.h"

#include <string.h>

#include "inside.h"
#include "refusals.h"

typedef char has_no_gaps[sizeof(struct lent_record) == 606 ? 1 : -1];

/* A record that was taken out of lent bytes, and the dock that it is: as it
 * was taken, and as a call makes it. */
struct taken {
    struct lent_record record;
    struct dock before, dock;
};

/* The numbers that a dock holds as they are lent. */
#define NUMBERS(NUMBER)                                                         \
    NUMBER(queue_length) NUMBER(repeating) NUMBER(countdown) NUMBER(set)        \
    NUMBER(rate) NUMBER(indicators) NUMBER(reply_count) NUMBER(scanning)        \
    NUMBER(waiting) NUMBER(handover) NUMBER(resend)
#define UNPACK(number) dock->number = record->number;
#define PACK(number) record->number = dock->number;

static unsigned bit_at(const struct columns *columns, unsigned position)
{
    return ((const uint8_t *)columns->word)[position / 8] >> position % 8 & 1;
}

static void set_bit_at(struct columns *columns, unsigned position)
{
    ((uint8_t *)columns->word)[position / 8] |= (uint8_t)(1u << position % 8);
}

static void unpack_counts(struct dock *dock, const struct lent_record *record)
{
    for (unsigned position = 0; position < POSITIONS; position++) {
        if (record->counts[position] >= 1)
            set_bit_at(&dock->once, position);
        if (record->counts[position] >= 2)
            set_bit_at(&dock->twice, position);
    }
}

static void pack_counts(struct lent_record *record, const struct dock *dock)
{
    for (unsigned position = 0; position < POSITIONS; position++)
        record->counts[position] = (uint8_t)(bit_at(&dock->once, position) + bit_at(&dock->twice, position));
}

static void unpack_types(struct dock *dock, const struct lent_record *record)
{
    for (unsigned key = 0; key <= KEY_COUNT; key++)
        set_type(dock, key, record->types[key] > TYPEMATIC_MAKE_BREAK ? MAKE : record->types[key]);
}

static void pack_types(struct lent_record *record, const struct dock *dock)
{
    for (unsigned key = 0; key <= KEY_COUNT; key++)
        record->types[key] = (uint8_t)get_type(dock, key);
}

/* There are more places for held keys than keys. */
static void unpack_held(struct dock *dock, const struct lent_record *record)
{
    for (unsigned key = 1; key <= KEY_COUNT; key++)
        if (record->held[key] != 0)
            set_held(dock, key, true);
}

static void pack_held(struct lent_record *record, const struct dock *dock)
{
    for (unsigned key = 1; key <= KEY_COUNT; key++)
        record->held[key] = is_held(dock, key);
}

static void unpack(struct dock *dock, const struct lent_record *record)
{
    memset(dock, 0, sizeof *dock);
    memcpy(dock->map, record->map, sizeof dock->map);
    memcpy(dock->down.word, record->closed, COLUMNS);
    memcpy(dock->queue, record->queue, sizeof dock->queue);
    memcpy(dock->replies, record->replies, sizeof dock->replies);
    NUMBERS(UNPACK)
    unpack_types(dock, record);
    unpack_counts(dock, record);
    unpack_held(dock, record);
}

/* A part of many places is left as it was lent if the call did not change what
 * it means. Key bytes leave the dock here, which is of no further use then. */
static void pack(struct lent_record *record, struct dock *dock, const struct dock *before)
{
    memcpy(record->map, dock->map, sizeof record->map);
    memcpy(record->closed, dock->down.word, COLUMNS);
    if (memcmp(dock->types, before->types, sizeof dock->types) != 0)
        pack_types(record, dock);
    if (memcmp(&dock->once, &before->once, sizeof dock->once) != 0 ||
        memcmp(&dock->twice, &before->twice, sizeof dock->twice) != 0)
        pack_counts(record, dock);
    if (memcmp(dock->held, before->held, sizeof dock->held) != 0)
        pack_held(record, dock);
    NUMBERS(PACK)
    if (dock->repeating == 0)
        record->countdown = 0; /* it has nothing to count for */
    memset(record->replies, 0, sizeof record->replies);
    memcpy(record->replies, dock->replies, dock->reply_count);
    memset(record->queue, 0, sizeof record->queue);
    for (size_t i = 0; dock->queue_length > 0; i++)
        record->queue[i] = pop_key_byte(dock);
}

static bool are_zeros(const uint8_t *bytes, const uint8_t *end)
{
    while (bytes < end && *bytes == 0)
        bytes++;
    return bytes == end;
}

static bool is_clean_behind_what_waits(const struct lent_record *record)
{
    return are_zeros(record->queue + record->queue_length, record->queue + QUEUE_SIZE) &&
           are_zeros(record->replies + record->reply_count, record->replies + REPLIES_MAX);
}

/* Whether the bytes are a record. */
static bool take(struct taken *taken, const uint8_t *bytes, size_t size)
{
    if (size != sizeof taken->record)
        return false;
    memcpy(&taken->record, bytes, sizeof taken->record);
    unpack(&taken->before, &taken->record);
    taken->dock = taken->before;
    return is_in_range(&taken->dock) && is_clean_behind_what_waits(&taken->record);
}

/* Writes the bytes if the call was accepted, and hands its answer on. */
static int give_back(uint8_t *bytes, struct taken *taken, int answer)
{
    if (answer >= 0) {
        pack(&taken->record, &taken->dock, &taken->before);
        memcpy(bytes, &taken->record, sizeof taken->record);
    }
    return answer;
}

int lent_power_on(uint8_t *bytes, size_t size)
{
    struct taken taken = {0};

    if (size != sizeof taken.record)
        return -REFUSED_RECORD;
    dock_power_on(&taken.dock);
    return give_back(bytes, &taken, 0);
}

int lent_scan(uint8_t *bytes, size_t size, const uint8_t *scan, size_t length)
{
    struct taken taken;

    if (!take(&taken, bytes, size))
        return -REFUSED_RECORD;
    return give_back(bytes, &taken, dock_scan(&taken.dock, scan, length));
}

int lent_swap(uint8_t *bytes, size_t size, const uint8_t *map, size_t length)
{
    struct taken taken;

    if (!take(&taken, bytes, size))
        return -REFUSED_RECORD;
    return give_back(bytes, &taken, dock_swap(&taken.dock, map, length));
}

int lent_frame(uint8_t *bytes, size_t size, uint32_t frame)
{
    struct taken taken;

    if (!take(&taken, bytes, size))
        return -REFUSED_RECORD;
    return give_back(bytes, &taken, dock_host_frame(&taken.dock, frame));
}

int lent_read(uint8_t *bytes, size_t size)
{
    struct taken taken;

    if (!take(&taken, bytes, size))
        return -REFUSED_RECORD;
    return give_back(bytes, &taken, dock_read(&taken.dock));
}

int lent_indicators(const uint8_t *bytes, size_t size)
{
    struct taken taken;

    if (!take(&taken, bytes, size))
        return -REFUSED_RECORD;
    return taken.dock.indicators;
}

int lent_scanning(const uint8_t *bytes, size_t size)
{
    struct taken taken;

    if (!take(&taken, bytes, size))
        return -REFUSED_RECORD;
    return taken.dock.scanning;
}
