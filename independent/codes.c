#include "codes.h"

#include <string.h>

#include "keys.h"
#include "refusals.h"

/* Media keys have none in set 3. */
static bool has_code(unsigned set, unsigned key)
{
    return keys[key].make[set - 1] != 0;
}

bool can_repeat(unsigned set, unsigned key, unsigned type)
{
    if (key == KEY_PAUSE || !has_code(set, key))
        return false;
    return set != 3 || type == TYPEMATIC || type == TYPEMATIC_MAKE_BREAK;
}

/* Puts a make code, or the break code made from it, and returns the new end. */
static uint8_t *put_code(uint8_t *end, unsigned set, unsigned code, bool is_break)
{
    if (code > 0xFF)
        *end++ = PREFIX >> 8;
    if (is_break && set == 1)
        code |= 0x80;
    else if (is_break)
        *end++ = 0xF0;
    *end++ = (uint8_t)code;
    return end;
}

static uint8_t *put_shift(uint8_t *end, unsigned set, unsigned shift, bool is_break)
{
    return put_code(end, set, PREFIX | keys[shift].make[set - 1], is_break);
}

static uint8_t *put_pause(uint8_t *end, unsigned set, bool ctrl)
{
    if (ctrl) {
        unsigned code = keys[KEY_PAUSE].make[set - 1];
        return put_code(put_code(end, set, code, false), set, code, true);
    }
    const uint8_t *bytes = set == 1 ? pause_set1 : pause_set2;
    size_t count = set == 1 ? sizeof pause_set1 : sizeof pause_set2;
    memcpy(end, bytes, count);
    return end + count;
}

/* The shifts sent around a key: those held, lifted for the key and put back
 * after it, or a left one that is feigned. None if shifts is 0. */
struct wrapping {
    unsigned shifts;
    bool feigned;
};

static struct wrapping choose_wrapping(unsigned key, unsigned modifiers, bool num_lock)
{
    const struct wrapping none = {0, false};
    const struct wrapping lifted = {modifiers & MOD_SHIFT, false};
    const struct wrapping feigned = {MOD_SHIFT_L, true};

    if (key >= KEY_INS && key <= KEY_RIGHT) {
        if (lifted.shifts)
            return num_lock ? none : lifted;
        return num_lock ? feigned : none;
    }
    if (key == KEY_PAD_SLASH)
        return lifted;
    if (key == KEY_PRINT && !modifiers)
        return feigned;
    return none;
}

static uint8_t *put_wrapped(uint8_t *end, unsigned set, unsigned code, bool release,
                            struct wrapping wrapping)
{
    bool left = wrapping.shifts & MOD_SHIFT_L;
    bool right = wrapping.shifts & MOD_SHIFT_R;

    if (release) {
        end = put_code(end, set, code, true);
        if (right)
            end = put_shift(end, set, KEY_SHIFT_R, wrapping.feigned);
        if (left)
            end = put_shift(end, set, KEY_SHIFT_L, wrapping.feigned);
    } else {
        if (left)
            end = put_shift(end, set, KEY_SHIFT_L, !wrapping.feigned);
        if (right)
            end = put_shift(end, set, KEY_SHIFT_R, !wrapping.feigned);
        end = put_code(end, set, code, false);
    }
    return end;
}

static uint8_t *put_set3(uint8_t *end, unsigned key, unsigned event, unsigned type)
{
    bool has_break = type == MAKE_BREAK || type == TYPEMATIC_MAKE_BREAK;
    if (!has_code(3, key) || (event == RELEASE && !has_break))
        return end;
    return put_code(end, 3, keys[key].make[2], event == RELEASE);
}

static uint8_t *put_sets_1_and_2(uint8_t *end, unsigned set, unsigned key, unsigned event,
                                 unsigned modifiers, bool num_lock)
{
    if (key == KEY_PAUSE)
        return event == PRESS ? put_pause(end, set, modifiers & MOD_CTRL) : end;

    unsigned code = keys[key].make[set - 1];
    if (key == KEY_PRINT && modifiers & MOD_ALT)
        code = set == 1 ? ALT_PRINT_SET1 : ALT_PRINT_SET2;
    if (event == REPEAT)
        return put_code(end, set, code, false);
    return put_wrapped(end, set, code, event == RELEASE,
                       choose_wrapping(key, modifiers, num_lock));
}

int encode(unsigned set, unsigned key, unsigned event, unsigned type,
           unsigned modifiers, unsigned num_lock, uint8_t *out, size_t room)
{
    if (set < 1 || set > 3 || key < 1 || key > KEY_COUNT || event > REPEAT ||
        type > TYPEMATIC_MAKE_BREAK || modifiers > MOD_ALL || num_lock > 1)
        return -REFUSED_ARGUMENT;
    if (room < SEQUENCE_MAX)
        return -REFUSED_ROOM;
    if (event == REPEAT && !can_repeat(set, key, type))
        return 0;

    uint8_t *end = set == 3 ? put_set3(out, key, event, type)
                            : put_sets_1_and_2(out, set, key, event, modifiers, num_lock);
    return (int)(end - out);
}
