#include "reader.h"

#include <stdbool.h>

#include "keys.h"
#include "refusals.h"

static int more(enum reader_state next)
{
    return READ_MORE + 65536 * (int)next;
}

static int key_event(unsigned set, unsigned code, bool is_break)
{
    if (code == (PREFIX | keys[KEY_SHIFT_L].make[set - 1]) ||
        code == (PREFIX | keys[KEY_SHIFT_R].make[set - 1]))
        return READ_WRAPPING;

    unsigned key = find_key(set, code);
    if (key == 0)
        return READ_UNKNOWN;
    if (key == KEY_PAUSE && set != 3)
        return is_break ? READ_WRAPPING : READ_PAUSE;
    return (is_break ? READ_RELEASE : READ_PRESS) + 256 * (int)key;
}

static int read_set1(unsigned state, uint8_t byte)
{
    bool is_break = byte & 0x80;
    unsigned code = byte & 0x7F;

    switch (state) {
    case SEEN_NOTHING:
        if (byte == 0xE0)
            return more(SEEN_E0);
        if (byte == 0xE1)
            return more(SEEN_E1);
        return key_event(1, code, is_break);
    case SEEN_E0:
        return key_event(1, PREFIX | code, is_break);
    case SEEN_E1:
    case SEEN_E1_1D:
    case SEEN_E1_1D_45:
    case SEEN_E1_1D_45_E1:
        return byte == pause_set1[state - SEEN_E1 + 1] ? more(state + 1) : READ_UNKNOWN;
    case SEEN_E1_1D_45_E1_9D:
        return byte == pause_set1[5] ? READ_PAUSE : READ_UNKNOWN;
    default:
        return READ_UNKNOWN;
    }
}

static int read_set2(unsigned state, uint8_t byte)
{
    switch (state) {
    case SEEN_NOTHING:
        if (byte == 0xE0)
            return more(SEEN_E0);
        if (byte == 0xE1)
            return more(SEEN_E1);
        if (byte == 0xF0)
            return more(SEEN_F0);
        return key_event(2, byte, false);
    case SEEN_E0:
        if (byte == 0xF0)
            return more(SEEN_E0_F0);
        return key_event(2, PREFIX | byte, false);
    case SEEN_F0:
        return key_event(2, byte, true);
    case SEEN_E0_F0:
        return key_event(2, PREFIX | byte, true);
    case SEEN_E1:
        return byte == pause_set2[1] ? more(SEEN_E1_14) : READ_UNKNOWN;
    case SEEN_E1_14:
    case SEEN_E1_14_77:
    case SEEN_E1_14_77_E1:
    case SEEN_E1_14_77_E1_F0:
    case SEEN_E1_14_77_E1_F0_14:
        return byte == pause_set2[state - SEEN_E1_14 + 2] ? more(state + 1) : READ_UNKNOWN;
    case SEEN_E1_14_77_E1_F0_14_F0:
        return byte == pause_set2[7] ? READ_PAUSE : READ_UNKNOWN;
    default:
        return READ_UNKNOWN;
    }
}

static int read_set3(unsigned state, uint8_t byte)
{
    switch (state) {
    case SEEN_NOTHING:
        if (byte == 0xF0)
            return more(SEEN_F0);
        return key_event(3, byte, false);
    case SEEN_F0:
        return key_event(3, byte, true);
    default:
        return READ_UNKNOWN;
    }
}

int read_key_byte(unsigned set, unsigned state, uint8_t byte)
{
    if (state > SEEN_E1_14_77_E1_F0_14_F0)
        return -REFUSED_RECORD;
    switch (set) {
    case 1:
        return byte == 0xFF ? READ_OVERRUN : read_set1(state, byte);
    case 2:
        return byte == 0x00 ? READ_OVERRUN : read_set2(state, byte);
    case 3:
        return byte == 0x00 ? READ_OVERRUN : read_set3(state, byte);
    default:
        return -REFUSED_ARGUMENT;
    }
}

int read_key_press(unsigned set, unsigned state, uint8_t byte)
{
    int found = read_key_byte(set, state, byte);
    if (found < 0)
        return found;
    if (found % 256 == READ_PRESS)
        return found - READ_PRESS;
    return found / 65536 * 65536;
}
