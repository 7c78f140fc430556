#include "dock.h"

#include <string.h>

#include "inside.h"
#include "keys.h"
#include "refusals.h"

static uint8_t highest_entry(const uint8_t map[POSITIONS])
{
    uint8_t highest = 0;
    for (size_t i = 0; i < POSITIONS; i++)
        highest = map[i] > highest ? map[i] : highest;
    return highest;
}

bool is_in_range(const struct dock *dock)
{
    return highest_entry(dock->map) <= KEY_COUNT &&
           dock->queue_head < QUEUE_SIZE && dock->queue_length <= QUEUE_SIZE &&
           dock->reply_count <= REPLIES_MAX &&
           dock->set >= 1 && dock->set <= 3 && dock->rate <= 0x7F &&
           dock->indicators <= 7 && dock->scanning <= 1 && dock->handover <= 1 &&
           (dock->waiting == 0 || takes_value(dock->waiting)) &&
           dock->repeating <= KEY_COUNT && dock->countdown <= 240;
}

void set_default_types(struct dock *dock)
{
    for (unsigned key = 0; key <= KEY_COUNT; key++)
        set_type(dock, key, keys[key].type);
}

/* Leaves what power-on leaves, save the map and a reply. */
void reset_all_but_map(struct dock *dock)
{
    struct dock fresh = {.resend = 0xFE, .set = 2, .rate = DEFAULT_RATE, .scanning = 1};
    memcpy(fresh.map, dock->map, sizeof fresh.map);
    set_default_types(&fresh);
    *dock = fresh;
}

/* The panel at power-on has no media keys. */
void dock_power_on(struct dock *dock)
{
    for (unsigned position = 0; position < POSITIONS; position++)
        dock->map[position] = position < KEY_APP ? (uint8_t)(position + 1) : 0;
    reset_all_but_map(dock);
    dock->replies[0] = 0xAA;
    dock->reply_count = 1;
}

static uint8_t pop_reply(struct dock *dock)
{
    uint8_t byte = dock->replies[0];
    dock->reply_count--;
    memmove(dock->replies, dock->replies + 1, dock->reply_count);
    return byte;
}

int dock_read(struct dock *dock)
{
    uint8_t byte;
    int kind;

    if (!is_in_range(dock))
        return -REFUSED_RECORD;
    if (dock->reply_count > 0) {
        byte = pop_reply(dock);
        kind = GAVE_REPLY;
    } else if (dock->queue_length > 0) {
        byte = pop_key_byte(dock);
        kind = GAVE_KEY_BYTE;
    } else {
        continue_handover(dock);
        return GAVE_NOTHING;
    }
    if (byte != 0xFE)
        dock->resend = byte;
    continue_handover(dock);
    return kind + byte;
}

/* Queues the releases of a removed panel's keys, lowest first, while they fit. */
void continue_handover(struct dock *dock)
{
    uint8_t sequence[SEQUENCE_MAX];

    if (!dock->handover)
        return;
    for (unsigned key = 1; key <= KEY_COUNT; key++) {
        if (!is_held(dock, key))
            continue;
        size_t length = encode_now(dock, key, RELEASE, sequence);
        if (!fits(dock, length))
            return;
        push_sequence(dock, sequence, length);
        let_go(dock, key);
    }
    dock->handover = 0;
}

/* The old panel's contacts are gone; its held keys wait for their releases. */
static void open_handover(struct dock *dock)
{
    memset(&dock->down, 0, sizeof dock->down);
    memset(&dock->once, 0, sizeof dock->once);
    memset(&dock->twice, 0, sizeof dock->twice);
    dock->repeating = 0;
    dock->handover = 1;
}

static bool has_double(const uint8_t map[POSITIONS])
{
    bool seen[KEY_COUNT + 1] = {false};
    for (size_t i = 0; i < POSITIONS; i++) {
        if (map[i] != 0 && seen[map[i]])
            return true;
        seen[map[i]] = true;
    }
    return false;
}

int dock_swap(struct dock *dock, const uint8_t *map, size_t length)
{
    if (!is_in_range(dock))
        return -REFUSED_RECORD;
    if (length != POSITIONS)
        return -REFUSED_MAP_LENGTH;
    if (highest_entry(map) > KEY_COUNT)
        return -REFUSED_MAP_ENTRY;
    if (has_double(map))
        return -REFUSED_MAP_DOUBLE;

    memcpy(dock->map, map, POSITIONS);
    if (!dock->handover)
        open_handover(dock);
    continue_handover(dock);
    return 0;
}
