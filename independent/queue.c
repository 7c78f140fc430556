#include "inside.h"
#include "keys.h"

static unsigned held_modifiers(const struct dock *dock)
{
    return (is_held(dock, KEY_SHIFT_L) ? MOD_SHIFT_L : 0) |
           (is_held(dock, KEY_SHIFT_R) ? MOD_SHIFT_R : 0) |
           (is_held(dock, KEY_CTRL_L) ? MOD_CTRL_L : 0) |
           (is_held(dock, KEY_CTRL_R) ? MOD_CTRL_R : 0) |
           (is_held(dock, KEY_ALT_L) ? MOD_ALT_L : 0) |
           (is_held(dock, KEY_ALT_R) ? MOD_ALT_R : 0);
}

size_t encode_now(const struct dock *dock, unsigned key, enum key_event event,
                  uint8_t sequence[SEQUENCE_MAX])
{
    unsigned num_lock = dock->indicators >> 1 & 1;
    return (size_t)encode(dock->set, key, event, get_type(dock, key),
                          held_modifiers(dock), num_lock, sequence, SEQUENCE_MAX);
}

static uint8_t *queue_slot(struct dock *dock, unsigned place)
{
    return &dock->queue[(dock->queue_head + place) % QUEUE_SIZE];
}

bool fits(const struct dock *dock, size_t length)
{
    return length <= (size_t)(QUEUE_SIZE - dock->queue_length);
}

void push_sequence(struct dock *dock, const uint8_t *sequence, size_t length)
{
    if (!fits(dock, length)) {
        *queue_slot(dock, dock->queue_length - 1u) = dock->set == 1 ? 0xFF : 0x00;
        return;
    }
    for (size_t i = 0; i < length; i++)
        *queue_slot(dock, dock->queue_length++) = sequence[i];
}

uint8_t pop_key_byte(struct dock *dock)
{
    uint8_t byte = *queue_slot(dock, 0);
    dock->queue_head = (uint8_t)((dock->queue_head + 1) % QUEUE_SIZE);
    dock->queue_length--;
    return byte;
}
