/* Compares the proved dock, through its C interface, with the independent one on records that are lent
 * as bytes: lent ROUNDS <SESSIONS
 *
 * The sessions are lines for the bench, each session behind a line `power-on`, and each line is a call.
 * The rest is what no line can ask: rounds of random records; scans, maps and records of every length;
 * wrong maps, frames of up to 32 bits, and records with another byte in each place; the question which
 * set is in use, behind every byte; and every key at every length of the queue. What has to hold of a
 * call stands in both.h. Prints how many calls there were of each answer, or the first difference and
 * fails. */
#include <stdio.h>
#include <stdlib.h>
#include <string.h>

#include "both.h"
#include "drawn.h"

/* Calls. */

static size_t draw_length(size_t right)
{
    return chance(95) ? right : below((unsigned)(2 * right + 1));
}

/* A scan in which contacts turn, if it is not a phantom: some draw from those that count as closed. */
static void draw_scan(uint8_t scan[COLUMNS], const uint8_t closed[COLUMNS])
{
    unsigned kind = below(6);
    for (unsigned column = 0; column < COLUMNS; column++) {
        uint8_t contact = (uint8_t)(1u << below(8));
        uint8_t seldom = chance(15) ? contact : 0;
        switch (kind) {
        case 0:
            scan[column] = closed[column];
            break;
        case 1:
            scan[column] = closed[column] ^ seldom;
            break;
        case 2:
            scan[column] = closed[column] & (uint8_t)~contact;
            break;
        case 3:
            scan[column] = contact;
            break;
        case 4:
            scan[column] = seldom;
            break;
        default:
            scan[column] = (uint8_t)random_bits();
        }
    }
}

static uint32_t draw_frame(void)
{
    switch (below(8)) {
    case 0:
        return (uint32_t)(random_bits() >> between(32, 53));
    case 1:
        return below(2048);
    case 2:
    case 3:
    case 4:
        return frame_of(below(0xED));
    default:
        return frame_of(between(0xED, 0xFF));
    }
}

/* A call that mostly is right, and sometimes wrong in its length, map or frame. Its bytes last until the
 * next is drawn. */
static struct call draw_call(enum call_kind kind, const union record *record)
{
    static uint8_t bytes[2 * POSITIONS];
    struct call call = {.kind = kind, .bytes = bytes};

    if (kind == SCAN) {
        draw_scan(bytes, record->parts.closed);
        call.length = draw_length(COLUMNS);
    } else if (kind == SWAP) {
        if (chance(70))
            draw_map(bytes);
        else
            draw_wrong_map(bytes);
        call.length = draw_length(POSITIONS);
    } else if (kind == FRAME) {
        call.frame = draw_frame();
    }
    return call;
}

static void every_call(const union record *record, size_t size)
{
    for (unsigned kind = 0; kind < CALL_KINDS; kind++)
        call_both_of_size(record, size, draw_call((enum call_kind)kind, record));
}

static void step_at_random(union record *record)
{
    static const enum call_kind likely[] = {SCAN, SCAN, SCAN, SCAN, SCAN, READ, READ, READ, FRAME, FRAME, SWAP};
    step_both(record, draw_call(likely[below(LENGTH(likely))], record));
}

/* Records. */

static void draw_bytes(uint8_t *bytes, size_t count)
{
    for (size_t i = 0; i < count; i++)
        bytes[i] = (uint8_t)random_bits();
}

/* Takes the bytes down to some range, mostly; where any will do, many are to be as calls leave them. */
static void mostly_below(uint8_t *bytes, size_t count, unsigned bound)
{
    if (chance(70))
        for (size_t i = 0; i < count; i++)
            bytes[i] = (uint8_t)(bytes[i] % bound);
}

static void mostly_zeros(uint8_t *bytes, size_t count)
{
    if (chance(70))
        for (size_t i = 0; i < count; i++)
            bytes[i] = chance(90) ? 0 : bytes[i];
}

static void draw_panel(struct lent_record *record)
{
    if (chance(60))
        draw_map(record->map);
    else
        for (unsigned position = 0; position < POSITIONS; position++)
            record->map[position] = (uint8_t)below(KEY_COUNT + 1);
    for (unsigned column = 0; column < COLUMNS; column++)
        record->closed[column] &= chance(80) ? (uint8_t)(1u << below(8)) : 0xFF;
    mostly_below(record->counts, sizeof record->counts, 4);
}

static void draw_keys(struct lent_record *record)
{
    mostly_below(record->types, sizeof record->types, 4);
    mostly_zeros(record->held, sizeof record->held);
    record->repeating = chance(50) ? (uint8_t)below(KEY_COUNT + 1) : 0;
    record->countdown = chance(60) ? (uint8_t)below(4) : (uint8_t)below(241);
}

static void draw_what_waits(struct lent_record *record)
{
    record->queue_length = (uint8_t)below(QUEUE_SIZE + 1);
    memset(record->queue + record->queue_length, 0, QUEUE_SIZE - record->queue_length);
    record->reply_count = chance(50) ? (uint8_t)below(REPLIES_MAX + 1) : 0;
    memset(record->replies + record->reply_count, 0, REPLIES_MAX - record->reply_count);
}

/* A record in its range, with anything in it. */
static void draw_record(struct lent_record *record)
{
    draw_bytes((uint8_t *)record, sizeof *record);
    draw_panel(record);
    draw_keys(record);
    draw_what_waits(record);
    record->set = (uint8_t)between(1, 3);
    record->rate &= 0x7F;
    record->indicators &= 7;
    record->scanning = chance(90);
    record->waiting = chance(20) ? (uint8_t)draw_valued_command() : 0;
    record->handover = chance(25);
}

/* Mostly it is no record any more. */
static void spoil(union record *record)
{
    size_t behind = offsetof(struct lent_record, queue);
    size_t place = chance(70) ? between((unsigned)behind, sizeof record->parts - 1) : below(sizeof record->parts);
    record->bytes[place] = (uint8_t)random_bits();
}

static void step_scans(union record *record, const uint8_t scan[COLUMNS], unsigned count)
{
    while (count-- > 0)
        step_both(record, (struct call){.kind = SCAN, .bytes = scan, .length = COLUMNS});
}

/* Records that the systematic cases begin with: power-on; a key that repeats; a panel taken away with
 * its keys held, some of them media keys, and a command that waits; and two with anything in them, the
 * second none. */
enum { BASES = 5 };
static union record bases[BASES];

static void make_bases(void)
{
    static const uint8_t a_closed[COLUMNS] = {[3] = 0x20};
    uint8_t many_closed[COLUMNS], map[POSITIONS];

    begin_cases("the first records", "record", "call");
    bytes_are_fixed = true;
    memset(many_closed, 0x10, sizeof many_closed);
    make_full_map(map);
    for (unsigned i = 0; i < 3; i++)
        step_both(&bases[i], (struct call){.kind = POWER_ON});
    step_both(&bases[1], (struct call){.kind = READ});
    step_scans(&bases[1], a_closed, 3);
    step_both(&bases[2], (struct call){.kind = SWAP, .bytes = map, .length = sizeof map});
    step_scans(&bases[2], many_closed, 3);
    draw_map(map);
    step_both(&bases[2], (struct call){.kind = SWAP, .bytes = map, .length = sizeof map});
    step_both(&bases[2], (struct call){.kind = FRAME, .frame = frame_of(0xED)});
    bytes_are_fixed = false;
    draw_record(&bases[3].parts);
    draw_record(&bases[4].parts);
    bases[4].parts.set = 0;
    end_cases();
}

/* Cases. */

static void compare_line(union record *record, const char *line, size_t length, unsigned long number)
{
    uint8_t bytes[LINE_BYTES_MAX];

    step_both(record, call_of_line(line, length, bytes));
    if (number % 8 == 0) {
        step_both(record, (struct call){.kind = INDICATORS});
        step_both(record, (struct call){.kind = SCANNING});
    }
}

/* The record of one session is what power-on of the next one finds. */
static void compare_sessions(void)
{
    union record record = {{0}};
    char *line = NULL;
    size_t room = 0;
    ssize_t length;
    unsigned long session = 0, number = 0;

    begin_cases("sessions", "session", "line");
    bytes_are_fixed = true;
    while ((length = getline(&line, &room, stdin)) >= 0) {
        if (length > 0 && line[length - 1] == '\n')
            length--;
        name_case(session, ++number);
        if (length == 8 && memcmp(line, "power-on", 8) == 0) {
            name_case(++session, number = 0);
            step_both(&record, (struct call){.kind = POWER_ON});
        } else if (session > 0) {
            compare_line(&record, line, (size_t)length, number);
        }
    }
    free(line);
    bytes_are_fixed = false;
    end_cases();
    if (session == 0) {
        puts("FAILED: there is no session on standard input");
        exit(EXIT_FAILURE);
    }
}

/* From each record every call, and a few calls in a row. Some are no records. */
static void compare_random_records(unsigned long rounds)
{
    union record record;

    begin_cases("random records", "record", "call");
    for (unsigned long round = 0; round < rounds; round++) {
        name_case(round, 0);
        draw_record(&record.parts);
        if (chance(15))
            spoil(&record);
        if (chance(3))
            draw_bytes(record.bytes, sizeof record.parts);
        every_call(&record, sizeof record.parts);
        for (unsigned i = 1; i <= 8; i++) {
            name_case(round, i);
            step_at_random(&record);
        }
    }
    end_cases();
}

static void compare_lengths(void)
{
    begin_cases("scans and maps of every length", "record", "length");
    for (unsigned base = 0; base < BASES; base++)
        for (size_t length = 0; length <= 2 * POSITIONS; length++) {
            struct call scan = draw_call(SCAN, &bases[base]);
            scan.length = length;
            name_case(base, length);
            if (length <= 2 * COLUMNS)
                call_both(&bases[base], scan);
            for (unsigned i = 0; i < 4; i++) {
                struct call swap = draw_call(SWAP, &bases[base]);
                swap.length = length;
                call_both(&bases[base], swap);
            }
        }
    end_cases();
}

static void compare_sizes(void)
{
    union record record;

    begin_cases("records of every size", "record", "size");
    for (unsigned base = 0; base < 2; base++) {
        memcpy(record.bytes, bases[base].bytes, sizeof record.parts);
        memcpy(record.bytes + sizeof record.parts, bases[base].bytes, sizeof record.parts);
        for (size_t size = 0; size <= sizeof record; size++) {
            name_case(base, size);
            every_call(&record, size);
        }
    }
    end_cases();
}

/* A key twice, in every pair of places; then also a number that is no key's, in every place. */
static void compare_wrong_maps(void)
{
    uint8_t map[POSITIONS];
    struct call swap = {.kind = SWAP, .bytes = map, .length = sizeof map};

    begin_cases("maps that are wrong in every place", "place", "other place");
    for (unsigned place = 0; place < POSITIONS; place++)
        for (unsigned other = 0; other < POSITIONS; other++) {
            name_case(place, other);
            make_full_map(map);
            map[place] = map[other];
            call_both(&bases[0], swap);
            map[(other + 1) % POSITIONS] = (uint8_t)between(KEY_COUNT + 1, 255);
            call_both(&bases[0], swap);
        }
    end_cases();
}

static void compare_frame(const union record *record, uint32_t frame)
{
    call_both(record, (struct call){.kind = FRAME, .frame = frame});
}

/* All of eleven bits; then such with higher bits, and others. */
static void compare_frames_on(const union record *record)
{
    for (uint32_t frame = 0; frame < 2048; frame++)
        compare_frame(record, frame);
    for (unsigned bit = 11; bit < 32; bit++)
        for (unsigned byte = 0xED; byte <= 0xFF; byte++) {
            uint32_t high = (uint32_t)1 << bit;
            compare_frame(record, high | frame_of(byte));
            compare_frame(record, high | (uint32_t)random_bits());
        }
}

/* In each set, with each command waiting. A difference names its frame by itself. */
static void compare_frames(void)
{
    static const uint8_t waiting[] = {0, 0xED, 0xF0, 0xF3, 0xFB, 0xFC, 0xFD};
    union record record = bases[1];

    begin_cases("frames", "set", "command that waits");
    for (uint8_t set = 1; set <= 3; set++)
        for (unsigned i = 0; i < LENGTH(waiting); i++) {
            record.parts.set = set;
            record.parts.waiting = waiting[i];
            name_case(set, waiting[i]);
            compare_frames_on(&record);
        }
    end_cases();
}

static void step_reads(union record *record, unsigned count)
{
    while (count-- > 0)
        step_both(record, (struct call){.kind = READ});
}

/* The last read gives nothing. */
static void read_all(union record *record)
{
    while (record->parts.reply_count > 0 || record->parts.queue_length > 0)
        step_reads(record, 1);
    step_reads(record, 1);
}

/* FE in the end has the last byte sent again that was read, which may be the set. */
static void compare_question(const union record *base, uint8_t set, unsigned byte, unsigned reads)
{
    const unsigned bytes[] = {0xF0, byte, 0x00, 0xFE};
    union record record = *base;

    record.parts.set = set;
    name_case(set, byte);
    for (unsigned i = 0; i < LENGTH(bytes); i++) {
        step_both(&record, (struct call){.kind = FRAME, .frame = frame_of(bytes[i])});
        step_reads(&record, reads);
    }
    read_all(&record);
}

/* F0, every byte, and the question 00, in each set, with none to three reads behind each frame. Once
 * from a handover, so that key bytes wait at the question; in sets 1 and 2 it is mostly still open then. */
static void compare_questions(void)
{
    begin_cases("questions which set is in use", "set", "byte before 00");
    for (uint8_t set = 1; set <= 3; set++)
        for (unsigned byte = 0; byte < 256; byte++)
            for (unsigned reads = 0; reads <= 3; reads++) {
                compare_question(&bases[1], set, byte, reads);
                compare_question(&bases[2], set, byte, reads);
            }
    end_cases();
}

/* One record with all values in one place, or with some where any will do. A value of the map meets
 * one call if it is none of those, and every other value every call. */
static void compare_place(const union record *base, size_t place)
{
    static const uint8_t some[] = {0, 1, 2, 3, 4, 7, 103, 104, 105, 124, 125, 126, 128, 200, 255};
    bool is_of_map = place < sizeof base->parts.map;
    bool is_any = !is_of_map && place < offsetof(struct lent_record, queue);
    union record record = *base;

    for (unsigned value = 0; value < 256; value++) {
        bool is_one_of_some = memchr(some, (int)value, sizeof some) != NULL;
        record.bytes[place] = (uint8_t)value;
        name_case(place, value);
        if (is_one_of_some || (!is_of_map && !is_any))
            every_call(&record, sizeof record.parts);
        else if (is_of_map)
            call_both(&record, draw_call((enum call_kind)(value % CALL_KINDS), &record));
    }
}

static void compare_places(void)
{
    begin_cases("records with one other byte", "place", "value");
    for (unsigned base = 1; base < BASES - 1; base++)
        for (size_t place = sizeof bases->parts; place-- > 0;)
            compare_place(&bases[base], place);
    end_cases();
}

/* Three scans that show one contact otherwise than it counts. */
static void turn_contact(union record *record, unsigned position)
{
    uint8_t scan[COLUMNS];

    memcpy(scan, record->parts.closed, sizeof scan);
    scan[position / 8] ^= (uint8_t)(1u << position % 8);
    step_scans(record, scan, 3);
}

/* Pressed while A repeats, and released, or held while its panel is taken away; in another set each time
 * than it was pressed in, and in the same. */
static void compare_key(unsigned key, unsigned queue_length)
{
    uint8_t map[POSITIONS];

    make_full_map(map);
    for (uint8_t set = 1; set <= 3; set++)
        for (uint8_t later = 1; later <= 3; later++) {
            union record record = bases[1];
            memcpy(record.parts.map, map, sizeof map);
            record.parts.set = set;
            memset(record.parts.queue, 0, sizeof record.parts.queue);
            memset(record.parts.queue, 0x1C, queue_length);
            record.parts.queue_length = (uint8_t)queue_length;
            name_case(key, queue_length);
            turn_contact(&record, key - 1);
            record.parts.set = later;
            union record swapped = record;
            turn_contact(&record, key - 1);
            step_both(&swapped, (struct call){.kind = SWAP, .bytes = map, .length = sizeof map});
            step_reads(&swapped, 2);
        }
}

/* Every key in every set, at every length of the queue. */
static void compare_keys(void)
{
    begin_cases("keys at every length of the queue", "key", "key bytes that wait");
    for (unsigned key = 1; key <= KEY_COUNT; key++)
        for (unsigned length = 0; length <= QUEUE_SIZE; length++)
            compare_key(key, length);
    end_cases();
}

static void compare_presses(void)
{
    begin_cases("reader of presses", "set", "state");
    for (uint32_t set = 0; set <= 5; set++)
        for (uint32_t state = 0; state <= 16; state++)
            for (unsigned byte = 0; byte < 256; byte++)
                read_press_by_both(set, state, (uint8_t)byte);
    for (unsigned bit = 8; bit < 32; bit++)
        for (unsigned byte = 0; byte < 256; byte++) {
            uint32_t large = (uint32_t)1 << bit;
            read_press_by_both(2 + large, 0, (uint8_t)byte);
            read_press_by_both(2, large, (uint8_t)byte);
            read_press_by_both(large, large, (uint8_t)byte);
        }
    end_cases();
}

int main(int count, char **words)
{
    if (count != 2) {
        fputs("usage: lent ROUNDS <SESSIONS\n", stderr);
        return 2;
    }
    begin_drawing(1);
    make_bases();
    compare_sessions();
    compare_presses();
    compare_random_records(strtoul(words[1], NULL, 10));
    compare_lengths();
    compare_sizes();
    compare_places();
    compare_wrong_maps();
    compare_frames();
    compare_questions();
    compare_keys();
    print_answers();
    return 0;
}
