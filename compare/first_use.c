/* A first program over keydock.h, written from the header alone, in C99 and C++ at once. It holds
 * every function to what the header says of it, then has two threads ask everything at the same
 * time and compares with what one thread is told. */
#include <pthread.h>
#include <stdio.h>
#include <string.h>

#include "keydock.h"

static int faults;

static void expect(int holds, const char *what)
{
    if (!holds) {
        printf("FAILED: %s\n", what);
        faults++;
    }
}

static void try_version(void)
{
    char dotted[64];
    snprintf(dotted, sizeof dotted, "%d.%d.%d", KEYDOCK_VERSION_MAJOR, KEYDOCK_VERSION_MINOR, KEYDOCK_VERSION_PATCH);
    expect(strcmp(dotted, KEYDOCK_VERSION) == 0, "the version's numbers and its string are the same");
}

/* ---- the dock ---- */

static int32_t power_on(struct keydock *dock)
{
    return keydock_power_on(dock, sizeof *dock);
}

/* So many scans with one contact closed, or with none for a position that there is not. */
static void scan(struct keydock *dock, int times, unsigned position)
{
    uint8_t columns[KEYDOCK_SCAN_SIZE] = {0};
    if (position < KEYDOCK_MAP_SIZE)
        columns[position / 8] = (uint8_t)(1u << position % 8);
    while (times-- > 0)
        expect(keydock_scan(dock, sizeof *dock, columns, sizeof columns) == 0, "a scan is taken");
}

static void host_sends(struct keydock *dock, uint8_t byte)
{
    expect(keydock_frame(dock, sizeof *dock, keydock_pack_frame(byte)) == 0, "a frame is taken");
}

/* The next bytes that the dock gives are these, of this kind. */
static void gives(struct keydock *dock, unsigned kind, const uint8_t *bytes, size_t count, const char *what)
{
    for (size_t i = 0; i < count; i++) {
        int32_t answer = keydock_read(dock, sizeof *dock);
        expect(answer > 0 && KEYDOCK_GIVEN_KIND(answer) == kind && KEYDOCK_GIVEN_BYTE(answer) == bytes[i], what);
    }
}

static void replies(struct keydock *dock, uint8_t byte, const char *what)
{
    gives(dock, KEYDOCK_GAVE_REPLY, &byte, 1, what);
}

static void sends(struct keydock *dock, uint8_t byte, const char *what)
{
    gives(dock, KEYDOCK_GAVE_KEY_BYTE, &byte, 1, what);
}

static void gives_nothing(struct keydock *dock, const char *what)
{
    int32_t answer = keydock_read(dock, sizeof *dock);
    expect(answer == 0 && KEYDOCK_GIVEN_KIND(answer) == KEYDOCK_GAVE_NOTHING && KEYDOCK_GIVEN_BYTE(answer) == 0, what);
}

enum { PLACE_OF_A = KEYDOCK_KEY_A - 1, NOWHERE = KEYDOCK_MAP_SIZE };

static void try_keys(void)
{
    struct keydock dock;
    memset(&dock, 0xFF, sizeof dock);
    expect(power_on(&dock) == 0, "power-on takes any bytes");
    replies(&dock, 0xAA, "AA waits at power-on");
    gives_nothing(&dock, "and nothing else");
    scan(&dock, 2, PLACE_OF_A);
    gives_nothing(&dock, "two scans are no press");
    scan(&dock, 1, PLACE_OF_A);
    sends(&dock, 0x1C, "three are, of A on the plain map");
    scan(&dock, 3, NOWHERE);
    sends(&dock, 0xF0, "a release begins");
    sends(&dock, 0x1C, "and is that of A");
    gives_nothing(&dock, "nothing waits any more");
}

static void try_host(void)
{
    static const uint8_t identity[] = {0xFA, 0xAB, 0x83};
    struct keydock dock;
    power_on(&dock);
    expect(keydock_indicators(&dock, sizeof dock) == 0, "no lamp is lit at power-on");
    expect(keydock_scanning(&dock, sizeof dock) == 1, "scanning is on at power-on");
    host_sends(&dock, 0xED);
    replies(&dock, 0xFA, "ED drops the AA that waited");
    host_sends(&dock, KEYDOCK_LAMP_NUM + KEYDOCK_LAMP_CAPS);
    expect(keydock_indicators(&dock, sizeof dock) == KEYDOCK_LAMP_NUM + KEYDOCK_LAMP_CAPS, "the lamps are those asked for");
    host_sends(&dock, 0xF2);
    gives(&dock, KEYDOCK_GAVE_REPLY, identity, sizeof identity, "the dock says who it is");
    host_sends(&dock, 0xF5);
    expect(keydock_scanning(&dock, sizeof dock) == 0, "F5 turns scanning off");
    replies(&dock, 0xFA, "and is acknowledged");
    scan(&dock, 5, PLACE_OF_A);
    gives_nothing(&dock, "no key is heard then");
    host_sends(&dock, 0xF4);
    expect(keydock_scanning(&dock, sizeof dock) == 1, "F4 turns it on");
    expect(keydock_frame(&dock, sizeof dock, keydock_pack_frame(0xEE) ^ 1) == 0, "a broken frame is taken");
    replies(&dock, 0xFE, "and asked for again");
}

static void map_with(uint8_t *map, unsigned position, uint8_t key)
{
    memset(map, 0, KEYDOCK_MAP_SIZE);
    map[position] = key;
}

static void try_swap(void)
{
    struct keydock dock;
    uint8_t map[KEYDOCK_MAP_SIZE];
    power_on(&dock);
    replies(&dock, 0xAA, "AA");
    scan(&dock, 3, PLACE_OF_A);
    sends(&dock, 0x1C, "A is pressed");
    map_with(map, 143, KEYDOCK_KEY_B);
    expect(keydock_swap(&dock, sizeof dock, map, sizeof map) == 0, "a map is taken");
    sends(&dock, 0xF0, "the key that was held comes up");
    sends(&dock, 0x1C, "and it is A");
    scan(&dock, 3, PLACE_OF_A);
    gives_nothing(&dock, "the new panel has no A");
    scan(&dock, 3, 143);
    sends(&dock, 0x32, "it has a B, at the last position");
}

/* A record is bytes: a copy, in any place, goes on as the first does. */
static void try_copies(void)
{
    uint8_t store[1 + sizeof(struct keydock)];
    struct keydock first, second;
    power_on(&first);
    scan(&first, 2, PLACE_OF_A);
    memcpy(store + 1, &first, sizeof first);
    struct keydock *moved = (struct keydock *)(void *)(store + 1);
    scan(&first, 1, PLACE_OF_A);
    scan(moved, 1, PLACE_OF_A);
    memcpy(&second, moved, sizeof second);
    expect(memcmp(&first, &second, sizeof first) == 0, "equal records make equal records");
    replies(&second, 0xAA, "a copy that was moved has its replies");
    sends(&second, 0x1C, "and its keys");
}

/* Every call with a record, with all but the record as it should be. */
enum { CALLS = 7 };

static int32_t call(int which, struct keydock *dock, size_t size)
{
    static const uint8_t zeros[KEYDOCK_MAP_SIZE] = {0};
    switch (which) {
    case 0: return keydock_power_on(dock, size);
    case 1: return keydock_scan(dock, size, zeros, KEYDOCK_SCAN_SIZE);
    case 2: return keydock_swap(dock, size, zeros, KEYDOCK_MAP_SIZE);
    case 3: return keydock_frame(dock, size, keydock_pack_frame(0xEE));
    case 4: return keydock_read(dock, size);
    case 5: return keydock_indicators(dock, size);
    default: return keydock_scanning(dock, size);
    }
}

static void try_sizes(void)
{
    static const size_t sizes[] = {0, 1, KEYDOCK_RECORD_SIZE - 1, KEYDOCK_RECORD_SIZE + 1, 2 * KEYDOCK_RECORD_SIZE};
    struct keydock docks[2], before;
    expect(sizeof before == KEYDOCK_RECORD_SIZE, "a record has no gaps");
    power_on(docks);
    before = docks[1] = docks[0];
    for (int which = 0; which < CALLS; which++) {
        for (size_t i = 0; i < sizeof sizes / sizeof sizes[0]; i++)
            expect(call(which, docks, sizes[i]) == KEYDOCK_REFUSED_RECORD, "another size is refused");
        expect(call(which, NULL, 0) == KEYDOCK_REFUSED_RECORD, "no record at all is refused");
        expect(memcmp(docks, &before, sizeof before) == 0, "and changes nothing");
    }
}

static void try_no_records(void)
{
    struct keydock dock, before;
    for (int which = 1; which < CALLS; which++)
        for (int byte = 0; byte < 256; byte += 255) {
            memset(&dock, byte, sizeof dock);
            before = dock;
            expect(call(which, &dock, sizeof dock) == KEYDOCK_REFUSED_RECORD, "bytes that are no record are refused");
            expect(memcmp(&dock, &before, sizeof dock) == 0, "and left as they were");
        }
}

static void try_wrong_calls(void)
{
    struct keydock dock, before;
    uint8_t map[KEYDOCK_MAP_SIZE + 1], columns[KEYDOCK_SCAN_SIZE + 1] = {0};
    power_on(&dock);
    scan(&dock, 3, PLACE_OF_A);
    before = dock;
    map_with(map, 5, KEYDOCK_KEYS + 1);
    expect(keydock_scan(&dock, sizeof dock, columns, KEYDOCK_SCAN_SIZE - 1) == KEYDOCK_REFUSED_SCAN_LENGTH, "a short scan");
    expect(keydock_scan(&dock, sizeof dock, columns, KEYDOCK_SCAN_SIZE + 1) == KEYDOCK_REFUSED_SCAN_LENGTH, "a long scan");
    expect(keydock_scan(&dock, sizeof dock, NULL, 0) == KEYDOCK_REFUSED_SCAN_LENGTH, "no scan");
    expect(keydock_swap(&dock, sizeof dock, map, KEYDOCK_MAP_SIZE - 1) == KEYDOCK_REFUSED_MAP_LENGTH, "a short map");
    expect(keydock_swap(&dock, sizeof dock, map, KEYDOCK_MAP_SIZE + 1) == KEYDOCK_REFUSED_MAP_LENGTH, "a long map");
    expect(keydock_swap(&dock, sizeof dock, NULL, 0) == KEYDOCK_REFUSED_MAP_LENGTH, "no map");
    map[0] = map[1] = KEYDOCK_KEY_A;
    expect(keydock_swap(&dock, sizeof dock, map, KEYDOCK_MAP_SIZE) == KEYDOCK_REFUSED_MAP_ENTRY,
           "a number past the last key, beside a double");
    map[5] = KEYDOCK_KEYS;
    expect(keydock_swap(&dock, sizeof dock, map, KEYDOCK_MAP_SIZE) == KEYDOCK_REFUSED_MAP_DOUBLE, "a key twice");
    expect(keydock_frame(&dock, sizeof dock, KEYDOCK_FRAME_MAX + 1) == KEYDOCK_REFUSED_FRAME, "2048 is no frame");
    expect(keydock_frame(&dock, sizeof dock, UINT32_MAX) == KEYDOCK_REFUSED_FRAME, "nor is the largest number");
    expect(memcmp(&dock, &before, sizeof dock) == 0, "what is refused changes nothing");
}

/* ---- frames ---- */

static void try_frames(void)
{
    int whole = 0;
    expect(keydock_pack_frame(0xFA) == 0x7F4, "FA gives 7F4");
    for (unsigned byte = 0; byte < 256; byte++) {
        uint32_t frame = keydock_pack_frame((uint8_t)byte);
        expect(frame <= KEYDOCK_FRAME_MAX, "a frame is eleven bits");
        expect(keydock_unpack_frame(frame) == (int32_t)byte, "a byte comes back from its frame");
        expect(keydock_unpack_frame(frame ^ 1) == KEYDOCK_BROKEN_FRAME, "a wrong start bit");
        expect(keydock_unpack_frame(frame ^ 1 << 9) == KEYDOCK_BROKEN_FRAME, "a wrong parity bit");
        expect(keydock_unpack_frame(frame ^ 1 << 10) == KEYDOCK_BROKEN_FRAME, "a wrong stop bit");
    }
    for (uint32_t frame = 0; frame <= KEYDOCK_FRAME_MAX; frame++)
        whole += keydock_unpack_frame(frame) >= 0;
    expect(whole == 256, "256 frames are whole");
    expect(keydock_unpack_frame(KEYDOCK_FRAME_MAX + 1) == KEYDOCK_REFUSED_FRAME, "2048 is no frame");
    expect(keydock_unpack_frame(UINT32_MAX) == KEYDOCK_REFUSED_FRAME, "the largest number is no frame");
}

/* ---- the codes of one key ---- */

enum { ROOM = 12, MARK = 0xA5 };

static void fill(uint8_t *bytes)
{
    memset(bytes, MARK, ROOM);
}

static int marked(const uint8_t *bytes, int32_t from)
{
    while (from < ROOM && bytes[from] == MARK)
        from++;
    return from == ROOM;
}

static void try_codes(void)
{
    static const uint8_t wrapped_up[] = {0xE0, 0xF0, 0x12, 0xE0, 0x75};
    uint8_t bytes[ROOM];
    fill(bytes);
    int32_t count = keydock_key_codes(2, KEYDOCK_KEY_UP, KEYDOCK_PRESS, KEYDOCK_TYPE_TYPEMATIC, KEYDOCK_HELD_SHIFT_LEFT, 0,
                                      bytes, KEYDOCK_CODES_MAX);
    expect(count == 5 && memcmp(bytes, wrapped_up, sizeof wrapped_up) == 0, "UP with the left SHIFT");
    expect(marked(bytes, count), "the bytes behind the codes are untouched");
    expect(keydock_key_codes(3, KEYDOCK_KEY_A, KEYDOCK_RELEASE, KEYDOCK_TYPE_TYPEMATIC, 0, 0, bytes, ROOM) == 0,
           "a Typematic key sends no release in set 3");
    expect(keydock_key_codes(3, KEYDOCK_KEY_A, KEYDOCK_REPEAT, KEYDOCK_TYPE_MAKE_BREAK, 0, 0, bytes, ROOM) == 0,
           "a Make/Break key does not repeat in set 3");
}

/* Keys behind APP have codes in sets 1 and 2 alone. */
static void try_media_keys(void)
{
    static const uint8_t mute_up[] = {0xE0, 0xF0, 0x23};
    uint8_t bytes[ROOM];
    fill(bytes);
    for (uint32_t key = KEYDOCK_KEY_APP + 1; key <= KEYDOCK_KEYS; key++)
        for (uint32_t event = KEYDOCK_PRESS; event <= KEYDOCK_REPEAT; event++)
            for (uint32_t type = 0; type < 4; type++)
                expect(keydock_key_codes(3, key, event, type, 63, 1, bytes, ROOM) == 0,
                       "a media key sends nothing in set 3");
    expect(keydock_key_codes(3, KEYDOCK_KEYS, KEYDOCK_PRESS, KEYDOCK_TYPE_MAKE, 0, 0, bytes,
                             KEYDOCK_CODES_MAX - 1) == KEYDOCK_REFUSED_OUTPUT, "a short output is refused");
    expect(marked(bytes, 0), "and nothing is written");
    int32_t count = keydock_key_codes(2, KEYDOCK_KEY_MUTE, KEYDOCK_RELEASE, KEYDOCK_TYPE_MAKE,
                                      KEYDOCK_HELD_SHIFT_LEFT, 1, bytes, ROOM);
    expect(count == 3 && memcmp(bytes, mute_up, sizeof mute_up) == 0, "MUTE heeds no SHIFT, no Num Lock");
}

/* The first and last name of each row of keys, with the last byte of its code in set 2 as any
 * table of PS/2 keyboards has it. */
static void try_names(void)
{
    static const struct { uint32_t key; uint8_t code; } rows[] = {
        {KEYDOCK_KEY_GRAVE, 0x0E}, {KEYDOCK_KEY_BACKSPACE, 0x66}, {KEYDOCK_KEY_TAB, 0x0D},
        {KEYDOCK_KEY_BACKSLASH, 0x5D}, {KEYDOCK_KEY_CAPS, 0x58}, {KEYDOCK_KEY_ENTER, 0x5A},
        {KEYDOCK_KEY_SHIFT_LEFT, 0x12}, {KEYDOCK_KEY_SHIFT_RIGHT, 0x59}, {KEYDOCK_KEY_CTRL_LEFT, 0x14},
        {KEYDOCK_KEY_CTRL_RIGHT, 0x14}, {KEYDOCK_KEY_INS, 0x70}, {KEYDOCK_KEY_RIGHT, 0x74},
        {KEYDOCK_KEY_NUM, 0x77}, {KEYDOCK_KEY_PAD_DEL, 0x71}, {KEYDOCK_KEY_PAD_0, 0x70},
        {KEYDOCK_KEY_PAD_9, 0x7D}, {KEYDOCK_KEY_ESC, 0x76}, {KEYDOCK_KEY_F12, 0x07},
        {KEYDOCK_KEY_PRINT, 0x7C}, {KEYDOCK_KEY_APP, 0x2F}, {KEYDOCK_KEY_WWW_BACK, 0x38},
        {KEYDOCK_KEY_WEB_HOME, 0x3A}, {KEYDOCK_KEY_MAIL, 0x48}, {KEYDOCK_KEY_CALCULATOR, 0x2B},
        {KEYDOCK_KEY_POWER, 0x37}, {KEYDOCK_KEY_WAKE_UP, 0x5E}};
    uint8_t bytes[ROOM];
    for (size_t i = 0; i < sizeof rows / sizeof rows[0]; i++) {
        int32_t count = keydock_key_codes(2, rows[i].key, KEYDOCK_PRESS, KEYDOCK_TYPE_MAKE, 0, 0, bytes, ROOM);
        expect(count > 0 && bytes[count - 1] == rows[i].code, "a name stands for its key");
    }
    expect(KEYDOCK_KEY_WAKE_UP == KEYDOCK_KEYS, "WAKE-UP is the last key");
}

/* Each argument out of its range by itself, and outputs that are too short. */
static void try_refusals(void)
{
    static const uint32_t wrong[][6] = {{0, 30, 0, 0, 0, 0},  {4, 30, 0, 0, 0, 0},  {2, 0, 0, 0, 0, 0},
                                        {2, 126, 0, 0, 0, 0}, {2, 30, 3, 0, 0, 0},  {2, 30, 0, 4, 0, 0},
                                        {2, 30, 0, 0, 64, 0}, {2, 30, 0, 0, 0, 2}, {UINT32_MAX, 30, 0, 0, 0, 0}};
    uint8_t bytes[ROOM];
    fill(bytes);
    for (size_t i = 0; i < sizeof wrong / sizeof wrong[0]; i++) {
        const uint32_t *w = wrong[i];
        for (size_t length = 0; length <= ROOM; length += ROOM / 2)
            expect(keydock_key_codes(w[0], w[1], w[2], w[3], w[4], w[5], bytes, length) == KEYDOCK_REFUSED_CHOICE,
                   "a choice out of its range is refused, whatever the output");
    }
    for (size_t length = 0; length < KEYDOCK_CODES_MAX; length++)
        expect(keydock_key_codes(2, KEYDOCK_KEY_A, KEYDOCK_PRESS, KEYDOCK_TYPE_MAKE, 0, 0, bytes, length) ==
                   KEYDOCK_REFUSED_OUTPUT, "a short output is refused");
    expect(keydock_key_codes(2, KEYDOCK_KEY_A, KEYDOCK_PRESS, KEYDOCK_TYPE_MAKE, 0, 0, NULL, 0) == KEYDOCK_REFUSED_OUTPUT,
           "no output at all is refused");
    expect(marked(bytes, 0), "a refused call writes nothing");
}

/* ---- reading key bytes back ---- */

/* The last event of some bytes that is neither more nor wrapping; *key is its key. */
static unsigned event_of(uint32_t set, const uint8_t *bytes, int32_t count, unsigned *key)
{
    uint32_t state = KEYDOCK_STATE_START;
    unsigned event = KEYDOCK_READ_MORE;
    *key = 0;
    for (int32_t i = 0; i < count; i++) {
        int32_t answer = keydock_read_byte(set, state, bytes[i]);
        expect(answer >= 0, "the state given can be given back");
        state = KEYDOCK_NEXT_STATE(answer);
        if (KEYDOCK_FOUND_EVENT(answer) == KEYDOCK_READ_MORE || KEYDOCK_FOUND_EVENT(answer) == KEYDOCK_READ_WRAPPING)
            continue;
        event = KEYDOCK_FOUND_EVENT(answer);
        *key = KEYDOCK_FOUND_KEY(answer);
    }
    expect(state == KEYDOCK_STATE_START, "the codes of a key are whole");
    return event;
}

static void try_reading(void)
{
    static const unsigned events[] = {KEYDOCK_READ_PRESSED, KEYDOCK_READ_RELEASED, KEYDOCK_READ_PRESSED};
    uint8_t bytes[KEYDOCK_CODES_MAX];
    unsigned found;
    for (uint32_t set = 1; set <= 3; set++)
        for (uint32_t key = 1; key <= KEYDOCK_KEYS; key++)
            for (uint32_t event = KEYDOCK_PRESS; event <= KEYDOCK_REPEAT; event++) {
                int32_t count = keydock_key_codes(set, key, event, KEYDOCK_TYPE_TYPEMATIC_MAKE_BREAK,
                                                  KEYDOCK_HELD_SHIFT_LEFT + KEYDOCK_HELD_SHIFT_RIGHT, 0,
                                                  bytes, sizeof bytes);
                unsigned read = event_of(set, bytes, count, &found);
                if (key > KEYDOCK_KEY_APP && set == 3)
                    expect(read == KEYDOCK_READ_MORE && found == 0, "a media key is not heard in set 3");
                else if (key == KEYDOCK_KEY_PAUSE && (set < 3 || event == KEYDOCK_REPEAT))
                    expect(read == (event == KEYDOCK_PRESS ? KEYDOCK_READ_PAUSE : KEYDOCK_READ_MORE) && found == 0,
                           "PAUSE is struck by its press alone");
                else
                    expect(read == events[event] && found == key, "a key reads back");
            }
    expect(KEYDOCK_FOUND_EVENT(keydock_read_byte(1, KEYDOCK_STATE_START, 0xFF)) == KEYDOCK_READ_OVERRUN, "FF in set 1");
    expect(KEYDOCK_FOUND_EVENT(keydock_read_byte(2, KEYDOCK_STATE_START, 0xFF)) == KEYDOCK_READ_UNKNOWN, "FF in set 2");
    expect(KEYDOCK_FOUND_EVENT(keydock_read_byte(3, KEYDOCK_STATE_START, 0x00)) == KEYDOCK_READ_OVERRUN,
           "00 in set 3");
    expect(keydock_read_byte(2, KEYDOCK_STATE_MAX, 0) >= 0, "the last state is one");
    expect(keydock_read_byte(0, KEYDOCK_STATE_MAX + 1, 0) == KEYDOCK_REFUSED_STATE, "a state past the last");
    expect(keydock_read_byte(0, KEYDOCK_STATE_START, 0) == KEYDOCK_REFUSED_CHOICE, "set 0");
    expect(keydock_read_byte(4, KEYDOCK_STATE_START, 0) == KEYDOCK_REFUSED_CHOICE, "set 4");
}

static void try_presses(void)
{
    for (uint32_t i = 0; i < 5u * 16 * 256; i++) {
        uint32_t set = i / 4096, state = i / 256 % 16;
        int32_t all = keydock_read_byte(set, state, (uint8_t)i), press = keydock_read_press(set, state, (uint8_t)i);
        if (all < 0) {
            expect(press == all, "who reads presses alone is refused the same");
            continue;
        }
        unsigned key = KEYDOCK_FOUND_EVENT(all) == KEYDOCK_READ_PRESSED ? KEYDOCK_FOUND_KEY(all) : 0;
        expect(press >= 0 && KEYDOCK_FOUND_KEY(press) == key, "and told the key of each press");
        expect(press >= 0 && KEYDOCK_NEXT_STATE(press) == KEYDOCK_NEXT_STATE(all), "and the same state");
    }
}

/* ---- threads ---- */

static void mix(uint64_t *sum, uint64_t number)
{
    *sum = (*sum ^ number) * UINT64_C(0x100000001B3);
}

/* A dock of its own through calls that are made up as they go, each answer mixed into the sum. */
static void use_a_dock(uint64_t *sum)
{
    struct keydock dock;
    uint64_t made_up = 1;
    mix(sum, (uint64_t)power_on(&dock));
    for (int i = 0; i < 4000; i++) {
        uint8_t columns[KEYDOCK_SCAN_SIZE] = {0}, map[KEYDOCK_MAP_SIZE];
        mix(&made_up, (uint64_t)i);
        unsigned chance = (unsigned)(made_up >> 56), number = (unsigned)(made_up >> 40 & 0xFFF);
        map_with(map, number % KEYDOCK_MAP_SIZE, (uint8_t)(4 * chance + number % 4));
        columns[number % 3] = (uint8_t)(made_up >> 60);
        mix(sum, (uint64_t)keydock_scan(&dock, sizeof dock, columns, i % 64 != 0 ? sizeof columns : 0));
        mix(sum, (uint64_t)keydock_scan(&dock, sizeof dock, columns, sizeof columns));
        mix(sum, (uint64_t)keydock_scan(&dock, sizeof dock, columns, sizeof columns));
        if (chance < 32)
            mix(sum, (uint64_t)keydock_swap(&dock, sizeof dock, map, sizeof map));
        if (chance >= 192)
            mix(sum, (uint64_t)keydock_frame(&dock, sizeof dock, number % 2 ? number : keydock_pack_frame((uint8_t)chance)));
        mix(sum, (uint64_t)keydock_read(&dock, sizeof dock));
        mix(sum, (uint64_t)keydock_indicators(&dock, sizeof dock));
        mix(sum, (uint64_t)keydock_scanning(&dock, sizeof dock));
    }
    for (size_t i = 0; i < sizeof dock; i++)
        mix(sum, dock.bytes[i]);
}

/* Every answer of every function, mixed into the one number that is lent. The choices are the digits of
 * one count, which begins with set 0 and key 0; the last key is one too many. */
static void *ask_everything(void *lent)
{
    uint64_t sum = 0;
    for (uint32_t i = 0; i < 2 * KEYDOCK_FRAME_MAX; i++) {
        mix(&sum, keydock_pack_frame((uint8_t)i));
        mix(&sum, (uint64_t)keydock_unpack_frame(i));
    }
    const uint32_t keys = KEYDOCK_KEYS + 2;
    for (uint32_t i = 0; i < 4 * keys * 3 * 4 * 64 * 2; i++) {
        uint8_t bytes[KEYDOCK_CODES_MAX] = {0};
        mix(&sum, (uint64_t)keydock_key_codes(i / 1536 / keys % 4, i / 1536 % keys, i / 512 % 3, i / 128 % 4,
                                              i / 2 % 64, i % 2, bytes, sizeof bytes));
        for (size_t j = 0; j < sizeof bytes; j++)
            mix(&sum, bytes[j]);
    }
    for (uint32_t i = 0; i < 4u * 16 * 256; i++) {
        mix(&sum, (uint64_t)keydock_read_byte(i / 4096, i / 256 % 16, (uint8_t)i));
        mix(&sum, (uint64_t)keydock_read_press(i / 4096, i / 256 % 16, (uint8_t)i));
    }
    use_a_dock(&sum);
    *(uint64_t *)lent = sum;
    return NULL;
}

static void try_threads(void)
{
    uint64_t alone = 0, first = 0, second = 0;
    pthread_t one, other;
    ask_everything(&alone);
    if (pthread_create(&one, NULL, ask_everything, &first) != 0 ||
        pthread_create(&other, NULL, ask_everything, &second) != 0) {
        expect(0, "two threads start");
        return;
    }
    pthread_join(one, NULL);
    pthread_join(other, NULL);
    expect(first == alone && second == alone, "two threads are told what one is told");
}

int main(void)
{
    try_version();
    try_keys();
    try_host();
    try_swap();
    try_copies();
    try_sizes();
    try_no_records();
    try_wrong_calls();
    try_frames();
    try_codes();
    try_media_keys();
    try_names();
    try_refusals();
    try_reading();
    try_presses();
    try_threads();
    printf("version %s: %d faults\n", KEYDOCK_VERSION, faults);
    return faults != 0;
}
