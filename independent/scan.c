#include <string.h>

#include "inside.h"
#include "refusals.h"

static bool two_or_more(unsigned rows)
{
    return rows & (rows - 1);
}

/* Three closed contacts at the corners of a rectangle make the fourth look
 * closed, so a scan that shows a whole rectangle is not to be believed. */
static bool is_phantom(const uint8_t scan[COLUMNS])
{
    uint8_t crowded[COLUMNS];
    size_t count = 0;

    for (size_t column = 0; column < COLUMNS; column++) {
        if (!two_or_more(scan[column]))
            continue;
        for (size_t i = 0; i < count; i++)
            if (two_or_more(scan[column] & crowded[i]))
                return true;
        crowded[count++] = scan[column];
    }
    return false;
}

static void send_code(struct dock *dock, unsigned key, enum key_event event)
{
    uint8_t sequence[SEQUENCE_MAX];
    size_t length = encode_now(dock, key, event, sequence);
    push_sequence(dock, sequence, length);
}

static unsigned first_delay(unsigned rate)
{
    return ((rate >> 5) + 1) * 60;
}

static unsigned repeat_interval(unsigned rate)
{
    return (8 + (rate & 7)) << (rate >> 3 & 3);
}

static void press(struct dock *dock, unsigned key)
{
    send_code(dock, key, PRESS);
    set_held(dock, key, true);
    if (can_repeat(dock->set, key, get_type(dock, key))) {
        dock->repeating = (uint8_t)key;
        dock->countdown = (uint8_t)first_delay(dock->rate);
    } else {
        dock->repeating = 0;
    }
}

void let_go(struct dock *dock, unsigned key)
{
    set_held(dock, key, false);
    if (dock->repeating == key)
        dock->repeating = 0;
}

static void release(struct dock *dock, unsigned key)
{
    send_code(dock, key, RELEASE);
    let_go(dock, key);
}

static void handle_changes(struct dock *dock, const struct columns *changed)
{
    const uint8_t *change = (const uint8_t *)changed->word;
    const uint8_t *down = (const uint8_t *)dock->down.word;

    for (unsigned column = 0; column < COLUMNS; column++)
        for (unsigned row = 0; change[column] >> row; row++) {
            unsigned key = dock->map[8 * column + row];
            if (!(change[column] >> row & 1) || key == 0)
                continue;
            if (down[column] >> row & 1)
                press(dock, key);
            else
                release(dock, key);
        }
}

/* A contact changes when three counted scans in a row read it otherwise. */
static void count_contacts(struct dock *dock, const uint8_t scan[COLUMNS])
{
    struct columns closed = {{0}};
    struct columns changed;
    uint64_t any = 0;

    memcpy(closed.word, scan, COLUMNS);
    for (size_t i = 0; i < COLUMN_WORDS; i++) {
        uint64_t otherwise = closed.word[i] ^ dock->down.word[i];
        uint64_t thrice = otherwise & dock->twice.word[i];
        dock->twice.word[i] = otherwise & dock->once.word[i] & ~thrice;
        dock->once.word[i] = otherwise & ~thrice;
        dock->down.word[i] ^= thrice;
        changed.word[i] = thrice;
        any |= thrice;
    }
    if (any)
        handle_changes(dock, &changed);
}

/* A repeat is due. It is lost if anything waits to be read. */
static void repeat(struct dock *dock)
{
    unsigned key = dock->repeating;

    if (!can_repeat(dock->set, key, get_type(dock, key))) {
        dock->repeating = 0;
        return;
    }
    if (dock->reply_count == 0 && dock->queue_length == 0)
        send_code(dock, key, REPEAT);
    dock->countdown = (uint8_t)repeat_interval(dock->rate);
}

int dock_scan(struct dock *dock, const uint8_t *scan, size_t length)
{
    if (!is_in_range(dock))
        return -REFUSED_RECORD;
    if (length != COLUMNS)
        return -REFUSED_SCAN_LENGTH;

    if (dock->scanning && !dock->waiting && !dock->handover) {
        /* A press in this scan starts the countdown anew. */
        if (dock->countdown > 0)
            dock->countdown--;
        if (!is_phantom(scan))
            count_contacts(dock, scan);
        if (dock->repeating && dock->countdown == 0)
            repeat(dock);
    }
    continue_handover(dock);
    return 0;
}
