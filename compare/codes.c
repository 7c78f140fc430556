/* Compares the proved code, through its C interface, with the independent program:
 * every frame, every key in every set, event, type and choice of modifiers and Num Lock,
 * every reader state, byte and set, arguments out of range, and outputs of 0 to 12 bytes
 * with the untouched ones looked at; and how many keys a terminal misreads that is wrong
 * about the set. Prints a line for each comparison and fails if any differs. */
#include <stdbool.h>
#include <stdio.h>
#include <string.h>

#include "../include/keydock.h"
#include "../independent/codes.h"
#include "../independent/frames.h"
#include "../independent/keys.h"
#include "../independent/reader.h"

enum { ROOM = 12, GUARD = 0xA5 };

typedef char has_the_same_keys[KEYDOCK_KEYS == KEY_COUNT ? 1 : -1];

static unsigned long cases, faults;

static void report(const char *what)
{
    printf("%s %s: %lu cases, %lu differ\n", faults ? "FAILED" : "passed", what, cases, faults);
}

static bool finish(const char *what)
{
    bool same = faults == 0;
    report(what);
    cases = 0;
    faults = 0;
    return same;
}

static void expect(bool same)
{
    cases++;
    if (!same)
        faults++;
}

static bool compare_frames(void)
{
    for (unsigned byte = 0; byte < 256; byte++)
        expect(keydock_pack_frame((uint8_t)byte) == pack_frame((uint8_t)byte));
    for (uint32_t frame = 0; frame < 65536; frame++)
        expect(keydock_unpack_frame(frame) == unpack_frame(frame));
    for (unsigned bit = 16; bit < 32; bit++) {
        uint32_t frame = (uint32_t)1 << bit;
        expect(keydock_unpack_frame(frame) == unpack_frame(frame));
        expect(keydock_unpack_frame(frame | 0x7F4) == unpack_frame(frame | 0x7F4));
    }
    return finish("frames");
}

/* Both encoders on the same arguments, into outputs of which only `room` bytes are lent. */
static void compare_key(unsigned set, unsigned key, unsigned event, unsigned type, unsigned modifiers,
                        unsigned num_lock, size_t room)
{
    uint8_t proved[ROOM], other[ROOM];
    memset(proved, GUARD, sizeof proved);
    memset(other, GUARD, sizeof other);
    int a = keydock_key_codes(set, key, event, type, modifiers, num_lock, proved, room);
    int b = encode(set, key, event, type, modifiers, num_lock, other, room);
    bool untouched = true;
    for (int i = a < 0 ? 0 : a; i < ROOM; i++)
        untouched = untouched && proved[i] == GUARD;
    expect(a == b && memcmp(proved, other, sizeof proved) == 0 && untouched);
}

static bool compare_codes(void)
{
    for (unsigned set = 1; set <= 3; set++)
        for (unsigned key = 1; key <= KEYDOCK_KEYS; key++)
            for (unsigned event = 0; event < 3; event++)
                for (unsigned type = 0; type < 4; type++)
                    for (unsigned modifiers = 0; modifiers < 64; modifiers++)
                        for (unsigned num_lock = 0; num_lock < 2; num_lock++)
                            compare_key(set, key, event, type, modifiers, num_lock, 8);
    return finish("key codes");
}

static bool compare_outputs(void)
{
    for (size_t room = 0; room <= ROOM; room++)
        for (unsigned set = 0; set <= 4; set++)
            for (unsigned key = 0; key <= KEYDOCK_KEYS + 1; key++)
                for (unsigned event = 0; event < 3; event++)
                    for (unsigned modifiers = 0; modifiers < 64; modifiers++)
                        compare_key(set, key, event, modifiers % 4, modifiers, modifiers / 4 % 2, room);
    return finish("lent outputs of 0 to 12 bytes");
}

static bool compare_choices(void)
{
    static const unsigned odd[] = {0, 1, 2, 3, 4, 5, 63, 64, 65, 104, 105, 125, 126, 127, 128, 255, 256, 257,
                                   258, 259, 260, 0x10001, 0x7FFFFFFF, 0x80000001, 0xFFFFFFFF};
    size_t count = sizeof odd / sizeof odd[0];
    for (size_t i = 0; i < count; i++)
        for (size_t j = 0; j < count; j++) {
            for (size_t room = 7; room <= 8; room++) {
                compare_key(odd[i], odd[j], 0, 0, 0, 0, room);
                compare_key(2, odd[i], odd[j], 0, 0, 0, room);
                compare_key(2, 65, odd[i], odd[j], 0, 0, room);
                compare_key(2, 65, 0, odd[i], odd[j], 0, room);
                compare_key(2, 65, 0, 0, odd[i], odd[j], room);
                compare_key(3, KEY_COUNT, odd[i], odd[j], 0, 0, room);
                compare_key(3, KEY_COUNT, 0, 0, odd[i], odd[j], room);
            }
        }
    return finish("choices out of range");
}

static bool compare_reader(void)
{
    for (unsigned set = 0; set <= 5; set++)
        for (unsigned state = 0; state <= 16; state++)
            for (unsigned byte = 0; byte < 256; byte++)
                expect(keydock_read_byte(set, state, (uint8_t)byte) == read_key_byte(set, state, (uint8_t)byte));
    for (unsigned bit = 8; bit < 32; bit++) {
        unsigned large = 1u << bit;
        for (unsigned byte = 0; byte < 256; byte++) {
            expect(keydock_read_byte(2 + large, 0, (uint8_t)byte) == read_key_byte(2 + large, 0, (uint8_t)byte));
            expect(keydock_read_byte(2, large, (uint8_t)byte) == read_key_byte(2, large, (uint8_t)byte));
        }
    }
    return finish("reader");
}

/* What a terminal makes of set 3 that believes set 2: of the keys that have a code there so many are another,
 * or none. A press of theirs is one byte, whatever the key's type. Media keys send nothing that could be
 * misread. */
static bool count_misread_keys(void)
{
    enum { MISREAD = 41 };
    unsigned proved = 0, other = 0;
    uint8_t bytes[KEYDOCK_CODES_MAX];

    for (unsigned key = 1; key <= KEY_APP; key++) {
        int pressed = READ_PRESS + 256 * (int)key;
        expect(keydock_key_codes(3, key, PRESS, 0, 0, 0, bytes, sizeof bytes) == 1);
        proved += keydock_read_byte(2, SEEN_NOTHING, bytes[0]) != pressed;
        expect(encode(3, key, PRESS, 0, 0, 0, bytes, sizeof bytes) == 1);
        other += read_key_byte(2, SEEN_NOTHING, bytes[0]) != pressed;
    }
    for (unsigned key = KEY_APP + 1; key <= KEYDOCK_KEYS; key++) {
        expect(keydock_key_codes(3, key, PRESS, 0, 0, 0, bytes, sizeof bytes) == 0);
        expect(encode(3, key, PRESS, 0, 0, 0, bytes, sizeof bytes) == 0);
    }
    expect(proved == MISREAD);
    expect(other == MISREAD);
    return finish("keys of set 3 that set 2 misreads");
}

int main(void)
{
    bool same = compare_frames();
    same = compare_codes() && same;
    same = compare_outputs() && same;
    same = compare_choices() && same;
    same = compare_reader() && same;
    same = count_misread_keys() && same;
    return same ? 0 : 1;
}
