#include "lines.h"

#include <stdio.h>
#include <stdlib.h>
#include <string.h>

static const uint8_t modifiers[] = {KEY_SHIFT_L, KEY_SHIFT_R, KEY_CTRL_L, KEY_CTRL_R, KEY_ALT_L, KEY_ALT_R};

/* Keys with forms or types of their own, and their make codes in set 3. */
static const struct { uint8_t key, set3; } special[] = {
    {59, 0x67}, {60, 0x64}, {61, 0x6E}, {62, 0x65}, {63, 0x6F}, {64, 0x6D},
    {65, 0x63}, {66, 0x61}, {67, 0x60}, {68, 0x6A}, {28, 0x5C}, {29, 0x14},
    {30, 0x1C}, {73, 0x7C}, {104, 0x8D},
    {KEY_PAD_SLASH, 0x77}, {KEY_PRINT, 0x57}, {KEY_PAUSE, 0x62},
    {KEY_PAD_SLASH, 0x77}, {KEY_PRINT, 0x57}, {KEY_PAUSE, 0x62}
};

static unsigned long lines_left; /* with the last, which is a case of its own */
static unsigned long bytes_printed;
static uint8_t map[POSITIONS];    /* of the panel now clipped on */
static uint8_t contacts[COLUMNS]; /* now closed */
unsigned reads_percent;

/* Lines. */

static void put_line(const char *text, size_t length)
{
    if (lines_left <= 1)
        return;
    fwrite(text, 1, length, stdout);
    putchar('\n');
    bytes_printed += length + 1;
    lines_left--;
}

static void put_bytes(const uint8_t *bytes, size_t count)
{
    char text[2 * POSITIONS + 1];
    for (size_t i = 0; i < count; i++)
        sprintf(text + 2 * i, "%02X", (unsigned)bytes[i]);
    put_line(text, 2 * count);
}

static void put_frame(unsigned frame)
{
    char text[4];
    sprintf(text, "%03X", frame & 0xFFF);
    put_line(text, 3);
}

void reads(unsigned count)
{
    while (count-- > 0)
        put_line("", 0);
}

static void scan_of(const uint8_t columns[COLUMNS])
{
    put_bytes(columns, COLUMNS);
    for (int i = 0; i < 2 && chance(reads_percent); i++)
        reads(1);
}

void scans(unsigned count)
{
    while (count-- > 0)
        scan_of(contacts);
}

void host(unsigned byte)
{
    put_frame(frame_of(byte));
    if (chance(reads_percent))
        reads(between(1, 3));
}

void host_pair(unsigned command, unsigned value)
{
    host(command);
    host(value);
}

/* Contacts. */

void set_contact(unsigned position, bool closed)
{
    uint8_t bit = (uint8_t)(1u << position % 8);
    if (closed)
        contacts[position / 8] |= bit;
    else
        contacts[position / 8] &= (uint8_t)~bit;
}

unsigned position_of(unsigned key)
{
    for (unsigned position = 0; position < POSITIONS; position++)
        if (map[position] == key)
            return position;
    return below(POSITIONS);
}

unsigned some_special(void)
{
    return below(LENGTH(special));
}

unsigned position_of_special(unsigned which)
{
    return position_of(special[which].key);
}

unsigned some_modifier_position(void)
{
    return position_of(modifiers[below(LENGTH(modifiers))]);
}

unsigned some_media_position(void)
{
    return position_of(draw_media_key());
}

unsigned some_position(void)
{
    unsigned which = below(11);
    if (which < 4)
        return position_of_special(some_special());
    if (which < 6)
        return some_modifier_position();
    if (which < 7)
        return some_media_position();
    return which < 10 ? below(KEY_COUNT) : below(POSITIONS);
}

void move_some_contact(void)
{
    unsigned position = some_position();
    set_contact(position, chance(55));
}

void open_all(void)
{
    memset(contacts, 0, sizeof contacts);
}

void lift_all(void)
{
    open_all();
    scans(between(3, 5));
}

void close_many(unsigned count)
{
    while (count-- > 0) {
        unsigned column = below(KEY_COUNT / 8 + 1);
        contacts[column] = (uint8_t)(1u << below(8));
    }
}

void close_coded(unsigned count)
{
    for (unsigned column = 0; column < COLUMNS && count > 0; column++) {
        unsigned row = below(8);
        for (unsigned i = 0; i < 8; i++, row = (row + 1) % 8) {
            unsigned key = map[8 * column + row];
            if (key >= 1 && key <= KEY_APP) {
                set_contact(8 * column + row, true);
                count--;
                break;
            }
        }
    }
}

void bounce(unsigned position)
{
    uint8_t columns[COLUMNS];
    memcpy(columns, contacts, sizeof columns);
    columns[position / 8] ^= (uint8_t)(1u << position % 8);
    for (unsigned i = between(1, 2); i > 0; i--)
        scan_of(columns);
}

void phantom(unsigned count)
{
    uint8_t columns[COLUMNS];
    memcpy(columns, contacts, sizeof columns);
    unsigned first = below(COLUMNS);
    unsigned second = (first + between(1, COLUMNS - 1)) % COLUMNS;
    uint8_t rows = (uint8_t)(1u << below(4));
    rows |= (uint8_t)(0x10u << below(4));
    columns[first] |= rows;
    columns[second] |= rows;
    while (count-- > 0)
        scan_of(columns);
}

void noisy_scan(void)
{
    uint8_t columns[COLUMNS];
    for (unsigned column = 0; column < COLUMNS; column++)
        columns[column] = (uint8_t)(random_bits() & random_bits() & random_bits());
    scan_of(columns);
}

/* Maps. */

void swap(void)
{
    draw_map(map);
    put_bytes(map, POSITIONS);
}

void swap_to_full(void)
{
    draw_full_map(map);
    put_bytes(map, POSITIONS);
}

void swap_refused(void)
{
    uint8_t made[POSITIONS];
    draw_wrong_map(made);
    put_bytes(made, POSITIONS);
}

/* Host bytes. */

unsigned some_rate(void)
{
    return chance(80) ? below(4) : below(128);
}

static unsigned some_value(unsigned command)
{
    if (chance(10))
        return below(256);
    if (chance(10))
        return below(0xED);
    switch (command) {
    case 0xED:
        return below(9);
    case 0xF0:
        return below(5);
    case 0xF3:
        return chance(20) ? between(0x7F, 0x80) : some_rate();
    default:
        return chance(60) ? special[some_special()].set3 : below(0x90);
    }
}

static unsigned some_command(void)
{
    if (chance(15))
        return 0xFE;
    if (chance(50))
        return draw_valued_command();
    if (chance(5))
        return below(256);
    unsigned byte = between(0xED, 0xFF);
    /* A reset undoes much, and stopping the scans hides the rest. */
    return (byte == 0xFF || byte == 0xF5) && chance(60) ? 0xF4 : byte;
}

void choose_set(void)
{
    host_pair(0xF0, between(1, 3));
}

/* 00 is the question behind F0, whatever was wrong between them; behind another
 * command it is a value, or wrong. The next frame finds both replies of the
 * question, or one, or none; then FE has the set sent again. */
void ask_which_set(void)
{
    if (chance(85))
        host(chance(85) ? 0xF0 : draw_valued_command());
    if (chance(15))
        host(0xFE);
    if (chance(15))
        host(below(0xED));
    if (chance(25))
        host(some_command());
    put_frame(frame_of(0x00));
    reads(below(4));
    if (chance(40))
        host(0xFE);
}

void some_host_bytes(void)
{
    unsigned command = some_command();
    host(command);
    if (chance(15))
        scans(between(1, 4));
    while (chance(12))
        host(chance(60) ? 0xFE : below(0xED));
    if (chance(85))
        host(some_value(command));
}

void set_type_of(unsigned which)
{
    host(between(0xFB, 0xFD));
    host(special[which].set3);
}

void set_type_of_none(void)
{
    host(between(0xFB, 0xFD));
    host(0x00);
}

void broken_frame(void)
{
    unsigned frame = frame_of(below(2) ? some_command() : below(256));
    unsigned kind = below(5);
    if (kind == 0)
        put_frame(frame ^ 1);
    else if (kind == 1)
        put_frame(frame ^ 1 << 9);
    else if (kind == 2)
        put_frame(frame ^ 1 << 10);
    else if (kind == 3)
        put_frame(below(2048));
    else
        put_frame(chance(30) ? 2048 : between(2048, 4095));
}

/* Lines that are not in the bench's language. */

static const unsigned right_lengths[] = {3, 3, 36, 36, 288};

/* Some end a little past a round place in the stream: a program whose input
 * buffer ends there could take what is left for a sound line. */
static void endless_line(void)
{
    unsigned length = between(289, 3000);
    if (chance(40)) {
        unsigned block = chance(20) ? 65536 : 4096;
        length = block - (unsigned)(bytes_printed % block);
        length += right_lengths[below(LENGTH(right_lengths))];
        if (length < 289)
            length += block;
    }
    char *text = malloc(length);
    if (text == NULL)
        exit(EXIT_FAILURE);
    memset(text, '0', length);
    put_line(text, length);
    free(text);
}

void malformed_line(void)
{
    static const unsigned wrong_lengths[] = {
        1, 2, 4, 5, 6, 18, 35, 37, 72, 144, 287, 289, 290, 576
    };
    static const char intruders[] = {
        '/', ':', '@', 'G', '`', 'a', 'f', 'g', ' ', '\t', '\r', '\0',
        '\x7F', '\x80', '\xB0', '\xFF', '-', '+', '_'
    };
    char text[600];
    unsigned length = right_lengths[below(LENGTH(right_lengths))];
    unsigned place = chance(20) ? length - 1 : below(length);

    for (unsigned i = 0; i < sizeof text; i++)
        text[i] = "0123456789ABCDEF"[chance(70) ? 0 : below(16)];
    switch (below(6)) {
    case 0:
        put_line(text, wrong_lengths[below(LENGTH(wrong_lengths))]);
        break;
    case 1: /* whatever end of line another machine may add */
        text[length] = "\r \t"[below(3)];
        put_line(text, length + 1);
        break;
    case 2:
        text[0] = "\r \t\0X"[below(5)];
        put_line(text, 1);
        break;
    case 3:
        for (unsigned i = 0; i < length; i++)
            if (text[i] >= 'A')
                text[i] = (char)(text[i] - 'A' + 'a');
        text[place] = (char)('a' + below(6));
        put_line(text, length);
        break;
    case 4:
        endless_line();
        break;
    default:
        text[place] = intruders[below(LENGTH(intruders))];
        put_line(text, length);
    }
}

/* A session's beginning and end. */

void begin_session(uint64_t seed, unsigned long lines)
{
    begin_drawing(seed);
    lines_left = lines;
    make_plain_map(map);
}

bool session_goes_on(void)
{
    return lines_left > 1;
}

void put_last_line(void)
{
    static const char *const lines[] = {
        "", "800", "7DC", "7D", "7DC\r", "000000000000000000000000000000000000"
    };
    if (lines_left == 0)
        return;
    fputs(lines[below(LENGTH(lines))], stdout);
    if (chance(40))
        putchar('\n');
}
